SIGTERM ends `up`, if its start held that back, and its nodes before it. The input of `up` has no end here.

  $ cp line.toml net.toml; start_up
  $ kill -TERM "$up"; wait "$up"
  $ grep 'node 1 .*ended' out-up
  node 1 has ended
  $ for id in 0 1 2; do silent "$id" || echo "node $id listens"; left "$id"; done

A second signal ends it although node 1 stands still: that node is killed.

  $ start_up; frozen=$(process_of 1); kill -STOP "$frozen"; kill -INT "$up"
  $ at_last grep -q '^node 0 .*ended' out-up; at_last grep -q '^node 2 .*ended' out-up
  $ kill -TERM "$up"; wait "$up"
  $ grep 'node 1 .*ended' out-up
  node 1 was ended by signal 9
