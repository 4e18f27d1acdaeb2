Folders stand in the places of the nodes' lock files, so that each node ends with status 1 at its start. `up` starts
each three times, and ends once none stays up, although its input does not end.

  $ cp line.toml net.toml; mkdir -p run/lock-0 run/lock-1 run/lock-2
  $ tokentree up net.toml run >out-up 2>err-up
  [1]
  $ grep '^node 2 ' out-up
  node 2 ended with status 1, and is started again
  node 2 ended with status 1, and is started again
  node 2 ended with status 1 for the third time at its start, and is left alone; mend what it says, and start up again
  $ tail -n 1 err-up
  tokentree: run: no node stays up there; see what each said, and start up again
