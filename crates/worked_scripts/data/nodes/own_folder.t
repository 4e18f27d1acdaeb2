Nodes look after their folder. A node with closed streams writes nothing into its lock file.

  $ cp ring.toml net.toml
  $ tokentree node net.toml 0 run >&- 2>&- &
  $ at_last test -e run/desk-0.sock; : >run/stop-0; at_last test ! -e run/stop-0; wc -c <run/lock-0
  0
  $ wait; rm -r run

A node whose folder is another's ends with status 1.

  $ start 0; mv run old; mkdir run; ended 0
  tokentree: run/lock-0: is another file now, or gone; the node ends, start it again
  [1]
  $ rm -r run old

A node whose stop file is a folder ends with status 1.

  $ mkdir -p run/stop-0; start 0; ended 0
  tokentree: run/stop-0: cannot be removed; remove it, and start the node again
  [1]
  $ rm -r run

A node whose socket for clients cannot be made again runs on, says so once, and takes the name back. It stands still
while its socket is replaced.

  $ start 0; kill -STOP "$process_0"; rm run/desk-0.sock; mkdir run/desk-0.sock; kill -CONT "$process_0"
  $ at_last test -s err-0; sleep 1; rmdir run/desk-0.sock
  $ at_last test -e run/desk-0.sock; stop 0
  tokentree: run/desk-0.sock: cannot be made again; remove what stands there: the node runs on, and tries again
