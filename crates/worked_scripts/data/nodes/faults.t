A node says why it does not start, or why it ends. Node 7 is one of eight nodes in a line.

  $ tokentree network --capacity 64 line 8 >net.toml; start 7
  $ tokentree node net.toml 7 run
  tokentree: run/lock-7: node 7 runs there already; stop it, or choose another DIR
  [1]

Its lock file is removed. The node then ends, since another node 7 could start there.

  $ rm run/lock-7; ended 7
  tokentree: run/lock-7: is another file now, or gone; the node ends, start it again
  [1]

A folder that is not empty stands in the place of its stop file.

  $ rm -r run; mkdir -p run/stop-7/full; tokentree node net.toml 7 run
  start default Absent
  ready
  tokentree: run/stop-7: cannot be removed; remove it, and start the node again
  [1]

A folder stands where its socket for neighbours would be.

  $ rm -r run; mkdir -p run/node-7.sock; tokentree node net.toml 7 run
  tokentree: run/node-7.sock: cannot be made; choose another DIR
  [1]

A file stands where its folder would be.

  $ rm -r run; : >run; tokentree node net.toml 7 run
  tokentree: run: cannot be made; make this folder, or choose another DIR
  [1]

The network has no node of this number.

  $ cp line.toml a.toml; tokentree node a.toml 7 run
  tokentree: no node 7 is in a.toml: its 3 nodes are numbered from 0
  [1]

A name of 96 letters leaves no room for the names of all sockets: `/node-7.sock` has 12 more, and 107 are the most.

  $ long=$(printf '%096d' 0); tokentree node net.toml 7 "$long" 2>&1 | sed "s/$long/LONG/"
  tokentree: LONG: a socket there has a name of more than 107 bytes; choose a shorter DIR
