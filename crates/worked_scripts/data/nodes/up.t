`up` starts again what ends, until its input ends.

  $ cp line.toml net.toml; mkfifo input; tokentree up net.toml run <input >out-up 2>err-up & up=$!
  $ exec 3>input; at_last says 'node 1 ready' out-up
  $ : >run/stop-1; at_last says 'node 1 ready' out-up 2
  $ kill -KILL "$(process_of 1)"; at_last says 'node 1 ready' out-up 3
  $ grep '^node 1 ' out-up
  node 1 start default Absent
  node 1 ready
  node 1 ended with status 0, and is started again
  node 1 start loaded
  node 1 ready
  node 1 was ended by signal 9, and is started again
  node 1 start loaded
  node 1 ready

Node 2 is killed too, and is named in the same way.

  $ at_last says 'node 2 ready' out-up; kill -KILL "$(process_of 2)"; at_last says 'node 2 ready' out-up 2
  $ grep '^node 2 .*again$' out-up
  node 2 was ended by signal 9, and is started again

A second `up` does not run in the same folder.

  $ tokentree up net.toml run
  tokentree: run/lock-up: another up runs there already; stop it, or choose another DIR
  [1]

Once its input ends, `up` ends its nodes and then itself.

  $ exec 3>&-; wait "$up"; cat err-up
  $ grep -v 'ready$\|start \|again$' out-up | sort
  node 0 has ended
  node 1 has ended
  node 2 has ended
  $ for id in 0 1 2; do silent "$id" || echo "node $id listens"; left "$id"; done
