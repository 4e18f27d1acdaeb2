Two lockers at two nodes take the lock 20 times each, and never hold it at once. Each has a command that makes a folder,
which fails if somebody else has made it, and removes it a little later.

  $ cp ring.toml net.toml; start 0; start 1; start 2
  $ serves 0 0; serves 1 1; serves 2 1; loans
  $ locks() {
  >     for round in 1 2 3 4 5 6 7 8 9 10 11 12 13 14 15 16 17 18 19 20; do
  >         tokentree lock run "$1" sh -c 'mkdir witness || exit 9; echo taken >>log; sleep 0.01; rmdir witness' &&
  >             echo "$round" >>"ended-$1"
  >     done
  > }
  $ locks 1 & first=$!; locks 2 & wait "$first" "$!"
  $ wc -l <ended-1; wc -l <ended-2; grep -c taken log
  20
  20
  40

`lock` ends as its command does. Without a command it holds the lock until standard input ends, which is at once here.

  $ tokentree lock run 0 sh -c 'exit 7'
  [7]
  $ tokentree lock run 1
  granted

  $ stop 0; stop 1; stop 2
