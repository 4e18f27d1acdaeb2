Node 0 gets frames that node 2 did not send, in its name, and node 1 is killed and starts again. In a network that has
come to rest node 2 never sends such frames: it is next to the root there, and its parent is the root. At most one has
the number of the frame that came last. They are sent before node 1 starts, and three times, since node 2 may connect
again before node 0 reads them.

  $ cp ring.toml net.toml; start 0 --record; start 2 --record
  $ serves 0 0; serves 2 1
  $ forged='H0002\nF00010000000300010000\nF00020000000300010000\nF00030000000300010000\n'
  $ for time in 1 2 3; do tokentree --connect run/node-0.sock "printf '$forged'; head -n 20 >answers"; done
  $ start 1 --record
  $ serves 0 0; serves 1 1; serves 2 1
  $ kill_node 1; start 1 --record
  $ serves 0 0; serves 1 1; serves 2 1
  $ tokentree status run | resting
  node 0 distance 0 parent none
  node 1 distance 1 parent 0
  node 2 distance 1 parent 0
  $ stop 0; stop 1; stop 2

The replay of the records leads to where the nodes stood, and a frame that node 2 did not send is named.

  $ tokentree gather run --network net.toml >events 2>said
  $ tokentree simulate net.toml events | resting
  node 0 distance 0 parent none
  node 1 distance 1 parent 0
  node 2 distance 1 parent 0
  $ grep -q '^tokentree: node 0 differs at microsecond .*: a frame that node 2 did not send$' said

After a kill other frames of neighbours may differ as well. So the list of events itself shows the forged ones: they are
put on the link as damage, with the numbers, the distance and the parent that were forged.

  $ grep -x 'harm frame 2 0 [0-9]* 0 3 1 0' events | sort -u
  harm frame 2 0 1 0 3 1 0
  harm frame 2 0 2 0 3 1 0
  harm frame 2 0 3 0 3 1 0
