A node makes a missing folder for its user alone. Files of its sockets that are removed come again.

  $ sed 's/capacity = 64/capacity = 63/' line.toml >net.toml; umask 0
  $ tokentree node net.toml 0 run >out-0 2>err-0 & process_0=$!
  $ at_last says ready out-0; cat out-0; stat -c %a run
  start default Absent
  ready
  700
  $ rm run/node-0.sock run/desk-0.sock run/look-0.sock
  $ for name in node desk look; do at_last test -S "run/$name-0.sock"; done; at_last stands 0 0

A node says on standard error that its links hold too little: first 63 frames, and then one.

  $ stop 0; left 0
  tokentree: capacity 63 is less than 64: 36 frames may be under way on a link; give the network capacity 64 or more
  $ cp two.toml net.toml; rm -r run; start 1; stop 1; left 1
  tokentree: capacity 1 is less than 64: 36 frames may be under way on a link; give the network capacity 64 or more
