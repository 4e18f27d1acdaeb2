How a state is shown: each node by ascending id, each link by ascending source and then destination, the nodes that
are privileged and that lend, and last the sweeps.

Here node 2 is the root, and the network file has its edges in another order. The bound for three nodes whose links
hold four items is 4(4+1) + 4(3+1) + 48*2*2 + 1 = 229.

  $ cat >three.toml <<'END'
  > nodes = 3
  > root = 2
  > capacity = 4
  > lease = 0
  > edges = [[2, 1], [0, 2]]
  > END
  $ printf 'send %s\n' '2 0' '2 1' '2 1' '1 2' '1 2' '1 2' | tokentree simulate three.toml -
  node 0 distance 3 parent none token no lent none waiting 0
  node 1 distance 3 parent none token no lent none waiting 0
  node 2 distance 3 parent none token no lent none waiting 0
  link 0 2 items 0
  link 1 2 items 3
  link 2 0 items 1
  link 2 1 items 2
  privileged 0 lending 0
  sweeps 0 of 229
