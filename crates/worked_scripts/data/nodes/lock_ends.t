A client ends as its command does. Two nodes keep the lock.

  $ cp pair.toml net.toml; start 0; start 1
  $ at_last stands 0 0; loans
  $ tokentree lock run 0 sh -c 'exit 7'
  [7]
  $ tokentree lock run 0 sh -c 'kill -KILL $$'
  [137]
  $ tokentree lock run 0 /no/such/command
  tokentree: there is no command /no/such/command
  [127]
  $ tokentree lock run 0 /
  tokentree: / cannot be run
  [126]

Without a command, a client holds the lock until its input ends. It ignores what its input says.

  $ hold 0; echo anything >&3; cat out-holder
  granted
  $ tokentree lock --timeout 1 run 0 sh -c 'exit 7'
  tokentree: node 0 did not lend the lock within 1 s
  [124]
  $ let_go && tokentree lock run 0 true
  $ stop 0; left 0; stop 1; left 1

A lease of 100 ticks, some 200 milliseconds, ends while a command runs. The command is ended too.

  $ sed 's/lease = 0/lease = 100/' pair.toml >net.toml; rm -r run; start 0; start 1
  $ at_last stands 0 0; tokentree lock run 0 sh -c 'exec sleep 30'
  tokentree: the lock is lost, since node 0 ended the loan: the command is ended
  [122]

With `--keep` the command runs on, and its status counts.

  $ tokentree lock --timeout 5 --keep run 0 sh -c 'until test -e go; do sleep 0.01; done; exit 3' 2>lost & keeper=$!
  $ at_last test -s lost; : >go; wait "$keeper"
  [3]
  $ cat lost
  tokentree: the lock is lost, since node 0 ended the loan: the command runs on without it
  $ stop 0; stop 1
