The record of a node that runs alone has the state in which the node starts, and then ticks, since nobody talks to it.

Here that is the default state. Node 0 of three has distance 3 and no parent, which is written as 0; P + 1 is parent P.
Its port to node 1 has zeros, but for the distances of its two payloads. Its desk lends to nobody. `start` has a
checksum of the network in front of the node.

  $ cp line.toml net.toml; start 0 --record; cat out-0
  start default Absent
  ready
  $ stop 0; left 0
  $ kinds run/record-0.0
  start own port loan whole
  $ head -n 5 seen | sed 's/^start [0-9]* /start /'
  start 0
  own 3 0
  port 1 0 0 3 0 0 3 0 0 0
  loan 0 0 0
  whole

The node kept its network. The folder has nothing else but its lock file and its state.

  $ cmp net.toml run/record.toml; ls run
  lock-0
  record-0.0
  record.toml
  state-0.tkt

When the node starts again, its record goes on in the same file, after what was there.

  $ goes_on() { head -c "$(wc -c <was)" run/record-0.0 | cmp - was; ls run | wc -l; kinds run/record-0.0; }
  $ cp run/record-0.0 was; start 0 --record; cat out-0
  start loaded
  ready
  $ stop 0; left 0; goes_on
  4
  start own port loan whole start own port loan whole

It also does if the file ends with half an entry, here the first byte of a tick. That byte is written over.

  $ cp run/record-0.0 was; printf '\007' >>run/record-0.0; entries run/record-0.0 | tail -n 1
  rest
  $ start 0 --record; cat out-0
  start loaded
  ready
  $ stop 0; left 0; goes_on
  4
  start own port loan whole start own port loan whole start own port loan whole
