Runs of as many rounds as a network is proved to need sweeps. Each round is a sweep. After them the tree stands, no
node lends, and at most one is privileged. Which one that is was not worked out, so it is cut from the lines. Each
send is followed by a take, so no item is left on a link.

At its start each node of the square has the greatest distance, and neither a parent nor a token nor a loan.

  $ network 4 0 '[0, 1], [0, 2], [1, 3], [2, 3]' >square.toml
  $ tokentree simulate square.toml - </dev/null
  node 0 distance 4 parent none token no lent none waiting 0
  node 1 distance 4 parent none token no lent none waiting 0
  node 2 distance 4 parent none token no lent none waiting 0
  node 3 distance 4 parent none token no lent none waiting 0
  link 0 1 items 0
  link 0 2 items 0
  link 1 0 items 0
  link 1 3 items 0
  link 2 0 items 0
  link 2 3 items 0
  link 3 1 items 0
  link 3 2 items 0
  privileged 0 lending 0
  sweeps 0 of 461

Each round of the square has 36 events. Node 3 lies opposite the root, and of the two ways there it takes the one over
the neighbour of smaller id.

  $ round 4 '0 1' '0 2' '1 0' '1 3' '2 0' '2 3' '3 1' '3 2' | repeat 461 >rounds
  $ wc -l <rounds
  16596
  $ tokentree simulate square.toml rounds >end
  $ sed 's/ token .*//; s/^privileged [01] /privileged 0 or 1 /' end
  node 0 distance 0 parent none
  node 1 distance 1 parent 0
  node 2 distance 1 parent 0
  node 3 distance 2 parent 1
  link 0 1 items 0
  link 0 2 items 0
  link 1 0 items 0
  link 1 3 items 0
  link 2 0 items 0
  link 2 3 items 0
  link 3 1 items 0
  link 3 2 items 0
  privileged 0 or 1 lending 0
  sweeps 461 of 461

Three nodes in a line start likewise. Each of their rounds has 19 events.

  $ network 3 0 '[0, 1], [1, 2]' >line.toml
  $ tokentree simulate line.toml - </dev/null
  node 0 distance 3 parent none token no lent none waiting 0
  node 1 distance 3 parent none token no lent none waiting 0
  node 2 distance 3 parent none token no lent none waiting 0
  link 0 1 items 0
  link 1 0 items 0
  link 1 2 items 0
  link 2 1 items 0
  privileged 0 lending 0
  sweeps 0 of 217
  $ round 3 '0 1' '1 0' '1 2' '2 1' | repeat 217 >rounds
  $ wc -l <rounds
  4123
  $ tokentree simulate line.toml rounds >end
  $ sed 's/ token .*//; s/^privileged [01] /privileged 0 or 1 /' end
  node 0 distance 0 parent none
  node 1 distance 1 parent 0
  node 2 distance 2 parent 1
  link 0 1 items 0
  link 1 0 items 0
  link 1 2 items 0
  link 2 1 items 0
  privileged 0 or 1 lending 0
  sweeps 217 of 217

Each of two nodes holds a forged token and lends it. These loans have no ticks left, so they end at the first tick of
their node, and hold up no sweep. After the 8 harms come 69 rounds of 10 events each.

  $ network 2 1 '[0, 1]' >leased.toml
  $ forged | tokentree simulate leased.toml - | grep '^privileged '
  privileged 2 lending 2
  $ { forged; rounds 69; } >rounds
  $ wc -l <rounds
  698
  $ tokentree simulate leased.toml rounds >end
  $ sed 's/ token .*//; s/^privileged [01] /privileged 0 or 1 /' end
  node 0 distance 0 parent none
  node 1 distance 1 parent 0
  link 0 1 items 0
  link 1 0 items 0
  privileged 0 or 1 lending 0
  sweeps 69 of 69
