A client says why it does not hold the lock, or loses it.

  $ cp pair.toml net.toml; start 0; start 1
  $ at_last stands 0 0; loans

A command kills the guard, the second process of its lock. The client then ends the command.

  $ tokentree lock run 0 sh -c 'for process in $(cat /proc/$PPID/task/$PPID/children); do
  >   [ $process = $$ ] || kill -KILL $process; done; exec sleep 30'
  tokentree: the second process of this lock is gone, which guards the command: the command is ended
  [122]

A command kills its client. The guard then ends the command, says so, and lets go of the lock.

  $ : >err-lock; tokentree lock run 0 sh -c 'kill -KILL $PPID; exec sleep 30' >out-lock 2>err-lock & locker=$!
  $ wait "$locker" 2>wait-killed
  [137]
  $ at_last test -s err-lock; cat out-lock err-lock
  tokentree: the first process of this lock is gone, which ran the command: the command is ended
  $ tokentree lock run 0 true

With `--keep` nobody asks the command to end. The lock is free only after it has ended by itself.

  $ tokentree lock --keep run 0 sh -c 'kill -KILL $PPID; trap "exit 1" TERM; sleep 0.5; echo ends by itself' \
  >   >out-lock 2>err-lock & locker=$!
  $ wait "$locker" 2>wait-killed
  [137]
  $ tokentree lock run 0 cat out-lock err-lock
  ends by itself

Node 0 is killed while a command has the lock.

  $ tokentree lock run 0 sh -c 'echo >held; exec sleep 30' 2>err-lock & locker=$!
  $ at_last test -e held; kill_node 0; wait "$locker"
  [122]
  $ cat err-lock
  tokentree: the lock is lost, since node 0 went away: the command is ended

The file of its socket is still there, and nobody listens.

  $ test -S run/desk-0.sock; tokentree lock run 0 sh -c 'exit 0'
  tokentree: nobody listens at run/desk-0.sock: start node 0, if the network has it
  [125]

It is killed once more while a client waits for the lock that another one has.

  $ start 0; at_last stands 0 0; loans; hold 0
  $ : >err-lock; tokentree lock --verbose run 0 2>err-lock & locker=$!
  $ at_last test -s err-lock; kill_node 0; wait "$locker"
  [125]
  $ cat err-lock
  tokentree: waiting at node 0
  tokentree: node 0 went away before it lent the lock

The client that had the lock had no command, and loses it too.

  $ let_go
  tokentree: the lock is lost, since node 0 went away: no command ran under it
  [122]

The same holds without the file of the socket. At last the folder is gone too.

  $ rm run/desk-0.sock; tokentree lock run 0 sh -c 'exit 0'
  tokentree: nobody listens at run/desk-0.sock: start node 0, if the network has it
  [125]
  $ stop 1; left 1; rm -r run; tokentree lock run 0 sh -c 'exit 0'
  tokentree: there is no folder run
  [125]
