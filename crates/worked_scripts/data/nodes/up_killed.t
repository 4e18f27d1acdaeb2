All nodes end if the `up` that keeps them running is killed.

  $ cp line.toml net.toml; start_up
  $ kill -KILL "$up"; wait "$up" 2>wait-killed
  [137]
  $ for id in 0 1 2; do at_last silent "$id"; done
