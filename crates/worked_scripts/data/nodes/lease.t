A lease ends while a command runs: 100 ticks are some 200 milliseconds.

  $ sed 's/lease = 0/lease = 100/; s/capacity = 64/capacity = 63/' ring.toml >net.toml; start 0; start 1; start 2
  $ tokentree lock run 2 sleep 50
  tokentree: the lock is lost, since node 2 ended the loan: the command is ended
  [122]

Links that hold one frame too few are reported when a node ends.

  $ for id in 0 1 2; do stop "$id"; done
  tokentree: capacity 63 is less than 64: 36 frames may be under way on a link; give the network capacity 64 or more
  tokentree: capacity 63 is less than 64: 36 frames may be under way on a link; give the network capacity 64 or more
  tokentree: capacity 63 is less than 64: 36 frames may be under way on a link; give the network capacity 64 or more
