`bound` shows the numbers of a network.

n is the number of nodes, e the greatest distance of a node from the root, and C the capacity of a link. Then the
counters of links count modulo 2C + 3, and the token's values modulo 6(n-1) + 1. The bound is
4(C+1) + 4(n+1) + 48(n-1)(n-1) + 1 sweeps, and the sharp one 16(n-1) + 4e + 15. A node's parent is the neighbour of
smallest id that is one nearer to the root.

With an option it prints the same lines, and more after them. `more_than FILE COMMAND..` shows these.

  $ more_than() {
  >     front=$1 size=$(wc -c <"$1")
  >     shift
  >     "$@" >whole && head -c "$size" whole | cmp - "$front" && tail -c +$((size + 1)) whole
  > }

  $ tokentree bound two.toml | tee eight
  nodes 2
  edges 1
  capacity 1
  counter 5
  ring 7
  distances 0 1
  parents none 0
  sweeps 69
  $ more_than eight tokentree bound two.toml --sharp
  sharp 35

  $ tokentree network line 3 >line.toml
  $ tokentree bound line.toml | tee eight
  nodes 3
  edges 2
  capacity 1
  counter 5
  ring 13
  distances 0 1 2
  parents none 0 1
  sweeps 217
  $ more_than eight tokentree bound line.toml --sharp
  sharp 55

  $ tokentree network grid 2 2 >square.toml
  $ tokentree bound square.toml | tee eight
  nodes 4
  edges 4
  capacity 1
  counter 5
  ring 19
  distances 0 1 1 2
  parents none 0 0 1
  sweeps 461
  $ more_than eight tokentree bound square.toml --sharp
  sharp 71

A star of 64 nodes around the root has 63 leaves. Its links hold 4096 items.

  $ tokentree network star 64 --capacity 4096 >star.toml
  $ leaves() { for _leaf in $(seq 63); do printf '%s' "$1"; done; }
  $ {
  >     printf 'nodes 64\nedges 63\ncapacity 4096\ncounter 8195\nring 379\n'
  >     printf 'distances 0%s\nparents none%s\nsweeps 207161\n' "$(leaves ' 1')" "$(leaves ' 0')"
  > } >eight
  $ tokentree bound star.toml | cmp - eight
  $ more_than eight tokentree bound star.toml --sharp
  sharp 1027

With --time three lines more are shown. A window is the time within which a frame is repeated and arrives, and two turns
of a node: 8 + 0.1 + 2 * 2.2 milliseconds. But if a loan and two turns take longer, a window is that long. The network
recovers within as many windows as the sharp bound has sweeps, and lends within 16(n-1) windows. Times are rounded up.

  $ timed() { tokentree bound "$1" --sharp >nine; more_than nine tokentree bound "$@" --sharp --time; }

A ring of three has 51 sweeps by the sharp bound, and lends within 32.

  $ tokentree network ring 3 >ring-3.toml
  $ timed ring-3.toml
  window 12.5 ms
  recovers within 638 ms
  lends within 400 ms
  $ timed square.toml
  window 12.5 ms
  recovers within 888 ms
  lends within 600 ms

A line of eight has 155 sweeps, and lends within 112.

  $ tokentree network line 8 >line-8.toml
  $ timed line-8.toml
  window 12.5 ms
  recovers within 1938 ms
  lends within 1400 ms

A loan of 8.1 milliseconds, the repetition and the way of a frame, makes the window no longer. It is meant if no loan is
named. One tenth more makes the window longer by as much.

  $ timed ring-3.toml --loan 8.1
  window 12.5 ms
  recovers within 638 ms
  lends within 400 ms
  $ timed ring-3.toml --loan 8.2
  window 12.6 ms
  recovers within 643 ms
  lends within 404 ms

So if frames are repeated each millisecond, and no loan is named, a window is 1 + 0.1 + 2 * 2.2 milliseconds.

  $ timed ring-3.toml --repeat 1
  window 5.5 ms
  recovers within 281 ms
  lends within 176 ms
  $ timed ring-3.toml --repeat 1 --loan 0
  window 5.5 ms
  recovers within 281 ms
  lends within 176 ms

If a loan lasts a second, a window of the ring is 1004.4 milliseconds.

  $ timed ring-3.toml --loan 1000
  window 1004.4 ms
  recovers within 51225 ms
  lends within 32141 ms

The capacity of its links does not change the times of the star.

  $ tokentree network star 64 >star-1.toml
  $ timed star-1.toml
  window 12.5 ms
  recovers within 12838 ms
  lends within 12600 ms
