State files that a node reads, in both layouts, and what it has read. The nodes run side by side, each in its own
folder.

Node 1 of two is saved at its start, once it has heard of the root, and with a state that is not its first one.

  $ state_file TKT2 2 1 1 1 2 none 0 0 0 2 none 0 2 none 0 0 | pass_from two.toml 1 start
  $ state_file TKT1 2 1 1 2 none 0 0 0 2 none 0 2 none 0 0 | pass_from two.toml 1 start-before
  $ state_file TKT2 2 1 1 1 2 0 0 1 0 2 0 0 2 none 0 0 | pass_from two.toml 1 heard
  $ state_file TKT1 2 1 1 2 0 0 1 0 2 0 0 2 none 0 0 | pass_from two.toml 1 heard-before
  $ state_file TKT2 2 1 1 1 1 0 0 4 3 1 0 6 0 none 5 4 | pass_from two.toml 1 other

Node 2 of a line is joined to node 0 as well since it was saved. Node 0 of a line was joined to node 2 when it was
saved.

  $ network 3 0 '[0, 1], [1, 2]' >line.toml; network 3 0 '[0, 1], [1, 2], [0, 2]' >triangle.toml
  $ state_file TKT2 3 2 1 1 2 1 1 3 2 2 1 5 1 0 6 5 | pass_from triangle.toml 2 joined
  $ state_file TKT2 3 0 1 2 3 2 1 4 3 1 0 12 0 none 11 10 2 0 4 3 2 0 3 2 12 12 | pass_from line.toml 0 left

The longest state is that of the middle of a star of 64 nodes. It is scrambled, and so are the states of other nodes.

  $ tokentree network star 64 --capacity 4096 >star.toml; network 4 0 '[0, 1], [0, 2], [1, 3], [2, 3]' >square.toml
  $ scrambled() {
  >     mkdir "$3"
  >     tokentree scramble "$1" "$2" "$3/state-$2.tkt" "$4"
  >     cp "$3/state-$2.tkt" "$3/was"
  >     pass "$@"
  > }
  $ scrambled star.toml 0 star 7; scrambled line.toml 1 line 4294967295
  $ scrambled triangle.toml 0 triangle 1; scrambled square.toml 3 square 2; wc -c <star/was
  1276
  $ wait

Each has read what was saved. A port to a neighbour that is new is as at the start, and one to a node that is no
neighbour any more is dropped.

  $ passed 1 start
  start loaded
  own 2 0
  port 0 0 0 2 0 0 2 0 0 0
  $ passed 1 start-before
  start loaded
  own 2 0
  port 0 0 0 2 0 0 2 0 0 0
  $ passed 1 heard
  start loaded
  own 2 1
  port 0 1 0 2 1 0 2 0 0 0
  $ passed 1 heard-before
  start loaded
  own 2 1
  port 0 1 0 2 1 0 2 0 0 0
  $ passed 1 other
  start loaded
  own 1 1
  port 0 4 3 1 1 6 0 0 5 4
  $ passed 2 joined
  start loaded
  own 2 2
  port 0 0 0 3 0 0 3 0 0 0
  port 1 3 2 2 2 5 1 1 6 5
  $ passed 0 left
  start loaded
  own 3 3
  port 1 4 3 1 1 12 0 0 11 10

Of a scrambled state each number is read as it was saved.

  $ for node in 0:star 1:line 0:triangle 3:square; do
  >     { echo 'start loaded'; recorded "${node#*:}/was"; } >as-saved
  >     passed "${node%:*}" "${node#*:}" | cmp - as-saved && wc -l <as-saved
  > done
  65
  4
  4
  4

A file that is longer than any state is not read to its end. All that is read of it is no state, although it begins as
one.

  $ mkdir run; { cat star/was; head -c 3724 /dev/zero; } >run/state-0.tkt; wc -c <run/state-0.tkt; begins star.toml 0
  5000
  start default Long
