`network` prints the network file of a kind. Its edges stand in the order of their greater node.

  $ tokentree network line 3
  capacity = 1
  edges = [[0, 1], [1, 2]]
  lease = 0
  nodes = 3
  root = 0
  $ tokentree network ring 4
  capacity = 1
  edges = [[0, 1], [1, 2], [0, 3], [2, 3]]
  lease = 0
  nodes = 4
  root = 0
  $ tokentree network grid 2 3
  capacity = 1
  edges = [[0, 1], [1, 2], [0, 3], [1, 4], [3, 4], [2, 5], [4, 5]]
  lease = 0
  nodes = 6
  root = 0
  $ tokentree network star 4 --root 3 --capacity 64 --lease 100
  capacity = 64
  edges = [[0, 1], [0, 2], [0, 3]]
  lease = 100
  nodes = 4
  root = 3
