Events of two nodes, from their start or after a fault, and the states that they lead to.

No events lead to the start: no node has a parent, and each has the greatest distance.

  $ tokentree simulate two.toml - </dev/null
  node 0 distance 2 parent none token no lent none waiting 0
  node 1 distance 2 parent none token no lent none waiting 0
  link 0 1 items 0
  link 1 0 items 0
  privileged 0 lending 0
  sweeps 0 of 69

After one round the root has its tree neighbour, and with it the token.

  $ rounds 1 | tokentree simulate two.toml -
  node 0 distance 0 parent none token yes lent none waiting 0
  node 1 distance 2 parent 0 token no lent none waiting 0
  link 0 1 items 0
  link 1 0 items 0
  privileged 1 lending 0
  sweeps 1 of 69

In the second round the root passes the token on, and node 1 does not know of it yet. In the third one it does.

  $ rounds 2 | tokentree simulate two.toml -
  node 0 distance 0 parent none token no lent none waiting 0
  node 1 distance 2 parent 0 token no lent none waiting 0
  link 0 1 items 0
  link 1 0 items 0
  privileged 0 lending 0
  sweeps 2 of 69
  $ rounds 3 | tokentree simulate two.toml -
  node 0 distance 0 parent none token no lent none waiting 0
  node 1 distance 1 parent 0 token yes lent none waiting 0
  link 0 1 items 0
  link 1 0 items 0
  privileged 1 lending 0
  sweeps 3 of 69

A ticket that asks there then gets the lock at the next tick.

  $ { rounds 3; printf 'ask 1 7\ntick 1\n'; } | tokentree simulate two.toml -
  node 0 distance 0 parent none token no lent none waiting 0
  node 1 distance 1 parent 0 token yes lent 7 waiting 0
  link 0 1 items 0
  link 1 0 items 0
  privileged 1 lending 1
  sweeps 3 of 69
  tokentree: a node lends the lock without a lease: no sweep ends until its ticket leaves

The token goes round in three rounds: it is at node 1 after 69 rounds, as after 3.

  $ rounds 69 | tokentree simulate two.toml -
  node 0 distance 0 parent none token no lent none waiting 0
  node 1 distance 1 parent 0 token yes lent none waiting 0
  link 0 1 items 0
  link 1 0 items 0
  privileged 1 lending 0
  sweeps 69 of 69
  $ rounds 70 | tokentree simulate two.toml -
  node 0 distance 0 parent none token yes lent none waiting 0
  node 1 distance 1 parent 0 token no lent none waiting 0
  link 0 1 items 0
  link 1 0 items 0
  privileged 1 lending 0
  sweeps 70 of 69
  $ rounds 71 | tokentree simulate two.toml -
  node 0 distance 0 parent none token no lent none waiting 0
  node 1 distance 1 parent 0 token no lent none waiting 0
  link 0 1 items 0
  link 1 0 items 0
  privileged 0 lending 0
  sweeps 71 of 69
  $ rounds 72 | tokentree simulate two.toml -
  node 0 distance 0 parent none token no lent none waiting 0
  node 1 distance 1 parent 0 token yes lent none waiting 0
  link 0 1 items 0
  link 1 0 items 0
  privileged 1 lending 0
  sweeps 72 of 69

A link of one place loses the second of two items, and the second of two takes from it finds nothing.

  $ printf 'send 0 1\nsend 0 1\n' | tokentree simulate two.toml -
  node 0 distance 2 parent none token no lent none waiting 0
  node 1 distance 2 parent none token no lent none waiting 0
  link 0 1 items 1
  link 1 0 items 0
  privileged 0 lending 0
  sweeps 0 of 69
  $ printf 'send 0 1\nsend 0 1\ntake 0 1\ntake 0 1\n' | tokentree simulate two.toml -
  node 0 distance 2 parent none token no lent none waiting 0
  node 1 distance 2 parent none token no lent none waiting 0
  link 0 1 items 0
  link 1 0 items 0
  privileged 0 lending 0
  sweeps 0 of 69

A loan without a lease ends when it is given back. Of two tickets at the root the first has the lock.

  $ { rounds 1; printf 'ask 0 1\nask 0 2\ntick 0\n'; } >lent
  $ tokentree simulate two.toml lent
  node 0 distance 0 parent none token yes lent 1 waiting 1
  node 1 distance 2 parent 0 token no lent none waiting 0
  link 0 1 items 0
  link 1 0 items 0
  privileged 1 lending 1
  sweeps 1 of 69
  tokentree: a node lends the lock without a lease: no sweep ends until its ticket leaves

Once the first ticket has left, the token goes on at the next tick. The second ticket gets the lock when the token is
back, three rounds later.

  $ { cat lent; printf 'leave 0 1\ntick 0\n'; } | tokentree simulate two.toml -
  node 0 distance 0 parent none token no lent none waiting 1
  node 1 distance 2 parent 0 token no lent none waiting 0
  link 0 1 items 0
  link 1 0 items 0
  privileged 0 lending 0
  sweeps 1 of 69
  $ { cat lent; echo 'leave 0 1'; rounds 3; echo 'tick 0'; } | tokentree simulate two.toml -
  node 0 distance 0 parent none token yes lent 2 waiting 0
  node 1 distance 1 parent 0 token no lent none waiting 0
  link 0 1 items 0
  link 1 0 items 0
  privileged 1 lending 1
  sweeps 4 of 69
  tokentree: a node lends the lock without a lease: no sweep ends until its ticket leaves

A loan for one tick. The lock is lent at the first of the two ticks here, and still is at the second one. A third tick
ends the loan.

  $ network 2 1 '[0, 1]' >leased.toml
  $ { rounds 1; printf 'ask 0 1\ntick 0\ntick 0\n'; } >leased
  $ tokentree simulate leased.toml leased
  node 0 distance 0 parent none token yes lent 1 waiting 0
  node 1 distance 2 parent 0 token no lent none waiting 0
  link 0 1 items 0
  link 1 0 items 0
  privileged 1 lending 1
  sweeps 1 of 69
  $ { cat leased; echo 'tick 0'; } | tokentree simulate leased.toml -
  node 0 distance 0 parent none token no lent none waiting 0
  node 1 distance 2 parent 0 token no lent none waiting 0
  link 0 1 items 0
  link 1 0 items 0
  privileged 0 lending 0
  sweeps 1 of 69

Two tickets ask at node 1, which has the token after 69 rounds. The first one gets the lock in round 70. Its lease has
run out in round 72, and the token goes on. It is back after round 74, and the second ticket gets the lock in round
75. Rounds 70, 71 and 75 complete no sweep, since node 1 lends when they end.

  $ { rounds 69; printf 'ask 1 1\nask 1 2\n'; rounds 6; } | tokentree simulate leased.toml -
  node 0 distance 0 parent none token no lent none waiting 0
  node 1 distance 1 parent 0 token yes lent 2 waiting 0
  link 0 1 items 0
  link 1 0 items 0
  privileged 1 lending 1
  sweeps 72 of 69

Each of two forged tokens is lent, and nothing moves while both are.

  $ forged | tokentree simulate two.toml -
  node 0 distance 0 parent none token yes lent 5 waiting 0
  node 1 distance 1 parent 0 token yes lent 6 waiting 0
  link 0 1 items 0
  link 1 0 items 0
  privileged 2 lending 2
  sweeps 0 of 69
  tokentree: a node lends the lock without a lease: no sweep ends until its ticket leaves
  $ { forged; rounds 1; } | tokentree simulate two.toml -
  node 0 distance 0 parent none token yes lent 5 waiting 0
  node 1 distance 1 parent 0 token yes lent 6 waiting 0
  link 0 1 items 0
  link 1 0 items 0
  privileged 2 lending 2
  sweeps 0 of 69
  tokentree: a node lends the lock without a lease: no sweep ends until its ticket leaves

After three rounds one of them is gone, and with it its loan. The other loan ends when it is given back. Its end makes
the tick a full one, and completes the first sweep.

  $ { forged; rounds 3; } | tokentree simulate two.toml -
  node 0 distance 0 parent none token yes lent 5 waiting 0
  node 1 distance 1 parent 0 token no lent none waiting 0
  link 0 1 items 0
  link 1 0 items 0
  privileged 1 lending 1
  sweeps 0 of 69
  tokentree: a node lends the lock without a lease: no sweep ends until its ticket leaves
  $ { forged; rounds 3; printf 'leave 0 5\ntick 0\n'; } | tokentree simulate two.toml -
  node 0 distance 0 parent none token no lent none waiting 0
  node 1 distance 1 parent 0 token no lent none waiting 0
  link 0 1 items 0
  link 1 0 items 0
  privileged 0 lending 0
  sweeps 1 of 69

Harms put items on links. The second noise is refused, since the link holds one item. Of two frames the one whose
number is out of range is refused. The other frame is taken, and node 1 then has its place in the tree.

  $ cat >items <<'END'
  > harm junk 0 1
  > harm junk 0 1
  > harm empty 0 1
  > harm frame 0 1 5 0 0 none 0
  > harm frame 0 1 4 3 0 none 0
  > END
  $ tokentree simulate two.toml items
  line 2: OutOfRange
  line 4: OutOfRange
  node 0 distance 2 parent none token no lent none waiting 0
  node 1 distance 2 parent none token no lent none waiting 0
  link 0 1 items 1
  link 1 0 items 0
  privileged 0 lending 0
  sweeps 0 of 69
  [3]
  $ { cat items; printf 'take 0 1\ntick 1\n'; } | tokentree simulate two.toml -
  line 2: OutOfRange
  line 4: OutOfRange
  node 0 distance 2 parent none token no lent none waiting 0
  node 1 distance 1 parent 0 token no lent none waiting 0
  link 0 1 items 0
  link 1 0 items 0
  privileged 0 lending 0
  sweeps 0 of 69
  [3]

Harms make a token and take it away. The root has its true distance and has copied that node 1 is its tree neighbour:
so it has the token. Another value of its machine takes the token away, and a value that no machine has is refused.

  $ printf 'harm own 0 0 none\nharm copy 0 1 1 0 0\n' >made
  $ tokentree simulate two.toml made
  node 0 distance 0 parent none token yes lent none waiting 0
  node 1 distance 2 parent none token no lent none waiting 0
  link 0 1 items 0
  link 1 0 items 0
  privileged 1 lending 0
  sweeps 0 of 69
  $ { cat made; echo 'harm value 0 1 6'; } | tokentree simulate two.toml -
  node 0 distance 0 parent none token no lent none waiting 0
  node 1 distance 2 parent none token no lent none waiting 0
  link 0 1 items 0
  link 1 0 items 0
  privileged 0 lending 0
  sweeps 0 of 69
  $ { cat made; echo 'harm value 0 1 7'; } | tokentree simulate two.toml -
  line 3: OutOfRange
  node 0 distance 0 parent none token yes lent none waiting 0
  node 1 distance 2 parent none token no lent none waiting 0
  link 0 1 items 0
  link 1 0 items 0
  privileged 1 lending 0
  sweeps 0 of 69
  [3]
