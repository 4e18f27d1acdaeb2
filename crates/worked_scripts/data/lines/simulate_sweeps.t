Which short runs of two nodes are sweeps. In a sweep each node has a full tick, and over each link an item is taken
that was sent in the same stretch, after the last sweep.

A round without its last take is a sweep: the first two takes of the link from node 0 and the first one of the link
back are enough.

  $ rounds 1 | sed '$d' | tokentree simulate two.toml -
  node 0 distance 0 parent none token yes lent none waiting 0
  node 1 distance 2 parent 0 token no lent none waiting 0
  link 0 1 items 0
  link 1 0 items 1
  privileged 1 lending 0
  sweeps 1 of 69

Both nodes tick, and an item is taken from each link. Both items were on their links when the stretch began, so they
renew no link. A new item over each link completes the sweep.

  $ cat >old <<'END'
  > harm junk 0 1
  > harm junk 1 0
  > tick 0
  > tick 1
  > take 0 1
  > take 1 0
  > END
  $ tokentree simulate two.toml old
  node 0 distance 0 parent none token no lent none waiting 0
  node 1 distance 2 parent 0 token no lent none waiting 0
  link 0 1 items 0
  link 1 0 items 0
  privileged 0 lending 0
  sweeps 0 of 69
  $ { cat old; printf 'send 0 1\ntake 0 1\nsend 1 0\ntake 1 0\n'; } | tokentree simulate two.toml -
  node 0 distance 0 parent none token yes lent none waiting 0
  node 1 distance 2 parent 0 token no lent none waiting 0
  link 0 1 items 0
  link 1 0 items 0
  privileged 1 lending 0
  sweeps 1 of 69

An old item that is lost does not stand in the way: a new one is taken after it.

  $ tokentree simulate two.toml - <<'END'
  > harm junk 0 1
  > tick 0
  > tick 1
  > lose 0 1 0
  > send 0 1
  > take 0 1
  > send 1 0
  > take 1 0
  > END
  node 0 distance 0 parent none token yes lent none waiting 0
  node 1 distance 2 parent 0 token no lent none waiting 0
  link 0 1 items 0
  link 1 0 items 0
  privileged 1 lending 0
  sweeps 1 of 69

A take that finds nothing renews no link.

  $ printf 'tick 0\ntick 1\ntake 0 1\ntake 1 0\n' | tokentree simulate two.toml -
  node 0 distance 0 parent none token no lent none waiting 0
  node 1 distance 2 parent 0 token no lent none waiting 0
  link 0 1 items 0
  link 1 0 items 0
  privileged 0 lending 0
  sweeps 0 of 69
