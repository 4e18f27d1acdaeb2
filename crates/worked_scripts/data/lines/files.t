`simulate` reads the network before the events. The last line says what is wrong.

  $ printf 'nodes =' >no-net.toml
  $ echo 'tick 0' >one.events
  $ simulated() { tokentree simulate "$1" "$2" >shown 2>why; echo "status $?: '$(tail -n 1 why)'"; }
  $ simulated two.toml one.events
  status 0: ''
  $ simulated two.toml absent
  status 1: 'tokentree: the events cannot be read'
  $ simulated two.toml .
  status 1: 'tokentree: the events cannot be read'
  $ simulated two.toml ''
  status 1: 'tokentree: the events cannot be read'
  $ simulated no-net.toml absent
  status 1: 'tokentree: network NotToml'
  $ simulated absent absent
  status 1: 'tokentree: network Unreadable'

Its output may be refused, too.

  $ tokentree simulate two.toml one.events 2>&1 >/dev/full | tail -n 1
  tokentree: standard output cannot be written

A number has one spelling: decimal, with no sign, no blank and no zero in front. The greatest one depends on what it is:
it is 9 for the root of ten nodes, 65535 for an id, and 18446744073709551615 for a number of sweeps.

  $ for word in '' +1 -1 -0 01 00 ' 1' '1 ' 0x1 1e0; do
  >     tokentree network line 10 --root="$word" >shown 2>&1; echo "'$word': status $?"
  > done
  '': status 2
  '+1': status 2
  '-1': status 2
  '-0': status 2
  '01': status 2
  '00': status 2
  ' 1': status 2
  '1 ': status 2
  '0x1': status 2
  '1e0': status 2
  $ tokentree scramble two.toml 7 one.state 7 2>&1 | head -n 1
  tokentree: two.toml: no node 7 is in it
  $ tokentree scramble two.toml 65535 one.state 7 2>&1 | head -n 1
  tokentree: two.toml: no node 65535 is in it
  $ statuses <<'END'
  > 2 scramble two.toml 65536 one.state 7
  > 0 draw two.toml one.events --to 18446744073709551615
  > 2 draw two.toml one.events --to 18446744073709551616
  > 2 draw two.toml one.events --to 99999999999999999999
  > END
