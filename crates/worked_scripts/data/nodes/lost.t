A lock that one waits for, that is lost, and that is not there.

  $ cp ring.toml net.toml; start 0; start 1; start 2
  $ serves 0 0; serves 1 1; serves 2 1; loans

No second process can be node 0 in this folder.

  $ tokentree node net.toml 0 run
  tokentree: run/lock-0: node 0 runs there already; stop it, or choose another DIR
  [1]

While a client holds the lock at node 0, nobody gets it at node 2.

  $ hold 0
  $ tokentree lock --timeout 1 run 2 true
  tokentree: node 2 did not lend the lock within 1 s
  [124]
  $ let_go

Node 1 is killed while a command has the lock.

  $ tokentree lock run 1 sh -c 'echo >held; exec sleep 50' 2>lost & locker=$!
  $ at_last test -e held; kill_node 1; wait "$locker"
  [122]
  $ cat lost
  tokentree: the lock is lost, since node 1 went away: the command is ended
  $ tokentree status run | grep 'node 1'; tokentree status run >all
  node 1 no answer
  [1]
  $ tokentree lock run 1 true
  tokentree: nobody listens at run/desk-1.sock: start node 1, if the network has it
  [125]

Then node 1 is there again.

  $ start 1
  $ stop 0; stop 1; stop 2
