Three nodes in a line come to their distances, and each says that it had no state file.

  $ cp line.toml net.toml; start 0; start 1; start 2; cat out-0 out-1 out-2
  start default Absent
  ready
  start default Absent
  ready
  start default Absent
  ready
  $ at_last stands 0 0; at_last stands 1 1; at_last stands 2 2
  $ stop 2; left 2

Node 2 starts from a state with any values in range, as a fault may leave it, while the others run. All come to their
distances again, and the lock is lent.

  $ tokentree scramble net.toml 2 run/state-2.tkt 7; start 2; cat out-2
  start loaded
  ready
  $ at_last stands 0 0; at_last stands 1 1; at_last stands 2 2; loans; tokentree lock run 2 true

The network gets an edge meanwhile, which makes it a ring. Node 2 is next to the root then.

  $ cp ring.toml new; mv new net.toml; at_last stands 2 1
  $ tokentree node net.toml 0 run
  tokentree: run/lock-0: node 0 runs there already; stop it, or choose another DIR
  [1]
  $ at_last test -s err-1; stop 0; left 0; stop 1; left 1; stop 2; left 2
  tokentree: node 0 takes up net.toml: edges that came: [0, 2]; that went: none
  tokentree: node 1 takes up net.toml: edges that came: [0, 2]; that went: none
  tokentree: node 2 takes up net.toml: edges that came: [0, 2]; that went: none

Node 2 starts from its saved state, and then from one that is cut to 33 bytes: the shortest state has 34.

  $ start 2; cat out-2; stop 2; left 2
  start loaded
  ready
  $ tokentree cut run/state-2.tkt 33; start 2; cat out-2; stop 2; left 2
  start default Short
  ready
