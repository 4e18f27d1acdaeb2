The record of each of two nodes that talk has its state, its ticks, frames both ways, and one connection.

  $ cp line.toml net.toml; start 0 --record; start 1 --record; cat out-0 out-1
  start default Absent
  ready
  start default Absent
  ready
  $ at_last stands 1 1; stop 1; left 1; stop 0; left 0

It begins with its only state, and is whole. The node took two frames or more, and sent as many.

  $ for id in 0 1; do
  >     kinds "run/record-$id.0" >line; cut -d ' ' -f 1 line; grep -c '^start ' seen; grep -c '^connects ' seen
  >     grep -e rest -e spoiled seen
  >     [ "$(grep -c '^takes' seen)" -ge 2 ] && [ "$(grep -c '^sends' seen)" -ge 2 ] || echo few frames
  > done
  start
  1
  1
  start
  1
  1
