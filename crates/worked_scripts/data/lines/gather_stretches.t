`gather` of stretches of records, which begin with harms that set up the network as it stood then.

Node 0 of a line of three ticks, an edge to node 2 joins, it sends its first frame there, the edge to node 1 goes, and
it ticks again. At node 1 two tickets ask, and the first one leaves. Node 2 ticks, and takes the frame of node 0. The
network's number has the digits 3, 0, 1 and 0 to the base 65599, modulo 2^32.

  $ mkdir run; network 3 0 '[0, 1], [1, 2]' >run/record.toml
  $ { note 1000000 start 2341827196 0
  > note 1000000 tick
  > note 1200000 join 2
  > note 1400000 send 2 0 0 3 0 0
  > note 1600000 part 1
  > note 2500000 tick
  > } >run/record-0.0
  $ { note 1000000 start 2341827196 1
  > note 1300000 ask 7
  > note 1350000 ask 9
  > note 2100000 leave 7
  > } >run/record-1.0
  $ { note 1000000 start 2341827196 2
  > note 1800000 tick
  > note 2300000 take 0 0 0 3 0 0
  > } >run/record-2.0

The whole list. It is the same from the start on, and for the last minute.

  $ tokentree gather run >whole 2>said && cat whole
  tick 0
  harm join 0 2
  ask 1 7
  ask 1 9
  send 0 2
  harm part 0 1
  tick 2
  leave 1 7
  take 0 2
  tick 0
  $ tokentree gather run --from 0 >list 2>said && cmp whole list
  $ tokentree gather run --last 60 >list 2>said && cmp whole list

What comes one second after the first entry, and later. The desk of node 1 is cleared, as others wait than at its start.
By its tick, node 2 has a parent: of its neighbours 0 and 1, whose distances it does not know yet, the one of smallest
id. The stretch is from 2.1 to 2.5 seconds. Six of the events are harms. The frame under way was sent at 1.4 and taken
at 2.3 seconds.

  $ tokentree gather run --from 1 >later 2>said && cat later said
  harm join 0 2
  harm part 0 1
  harm own 0 0 none
  harm desk 1 none 0 no
  ask 1 7
  ask 1 9
  harm own 2 3 0
  harm frame 0 2 0 0 3 none 0
  leave 1 7
  take 0 2
  tick 0
  tokentree: nodes 3, events 11, time 400000 microseconds
  tokentree: frames lost 0, harms 6, frames that nobody sent 0
  tokentree: differences 0
  tokentree: longest turn 0 microseconds, longest delay 900000, loans 0

The last second begins at 1.5: the edge between 0 and 1 is still there, and node 2 has not ticked.

  $ tokentree gather run --last 1 >last 2>said && cat last
  harm join 0 2
  harm own 0 0 none
  harm desk 1 none 0 no
  ask 1 7
  ask 1 9
  harm frame 0 2 0 0 3 none 0
  harm part 0 1
  tick 2
  leave 1 7
  take 0 2
  tick 0

A stretch after all entries is the end alone. Ticket 9 still waits at node 1. The frame that node 2 took acknowledges
its number, so node 2 goes on to the next one, and sends its new distance and parent under it.

  $ tokentree gather run --from 100 >end 2>said && cat end
  harm join 0 2
  harm part 0 1
  harm own 0 0 none
  harm desk 1 none 0 no
  ask 1 9
  harm own 2 3 0
  harm counters 2 0 1 0
  harm staged 2 0 3 0 0

All four lists lead to the same state, and leave all links empty; only the sweeps since the last damage differ.

  $ state() { tokentree simulate run/record.toml "$1" | sed '/^sweeps /d'; }
  $ state whole | tee stood
  node 0 distance 0 parent none token no lent none waiting 0
  node 1 distance 3 parent none token no lent none waiting 1
  node 2 distance 3 parent 0 token no lent none waiting 0
  link 0 2 items 0
  link 1 2 items 0
  link 2 0 items 0
  link 2 1 items 0
  privileged 0 lending 0
  $ for list in later last end; do state $list | cmp stood -; done

That is so in each part of the nodes' states. If the records end with these states, as they follow from the above, the
lists stay as they are. Other states would add harms to them: so does another ring value.

  $ add_states() {
  >     { last=2500000; note "$2" again 2341827196 0; note "$2" own 0 0
  >     note "$2" port 2 0 0 3 0 0 3 0 0 0
  >     note "$2" loan 0 0 0; note "$2" whole; } >>"$1/record-0.0"
  >     { last=2100000; note "$2" again 2341827196 1; note "$2" own 3 0
  >     note "$2" port 2 0 0 3 0 0 3 0 0 0
  >     note "$2" wait 9; note "$2" loan 0 0 0; note "$2" whole; } >>"$1/record-1.0"
  >     { last=2300000; note "$2" again 2341827196 2; note "$2" own 3 1
  >     note "$2" port 0 1 0 3 1 0 3 0 0 0
  >     note "$2" port 1 0 0 3 0 0 3 0 0 "$3"
  >     note "$2" loan 0 0 0; note "$2" whole; } >>"$1/record-2.0"
  > }
  $ cp -r run soon; add_states soon 2500000 0
  $ tokentree gather soon >list 2>said && cmp whole list
  $ tokentree gather soon --from 1 >list 2>said && cmp later list
  $ tokentree gather soon --last 1 >list 2>said && cmp last list
  $ cp -r run much_later; add_states much_later 200000000 0
  $ tokentree gather much_later --from 100 >list 2>said && cmp end list
  $ cp -r run other; add_states other 200000000 1
  $ { cat end; echo 'harm value 2 1 1'; } >longer; tokentree gather other --from 100 >list 2>said && cmp longer list

Two nodes. Node 0 ticks in the first and the second second. Node 1 has the distance 1 when its record begins, in the
first second. In the third second it has another parent, and it lends to ticket 7 for 25 milliseconds. Its whole state
was known before the stretch, so the parent and the loan are differences in it.

  $ mkdir two; cp two.toml two/record.toml
  $ { note 1000000 start 1561239997 0; note 1000000 tick; note 2000000 tick; } >two/record-0.0
  $ harmed 900000 2950000 2960000 2985000 >two/record-1.0; tokentree gather two --from 1 2>said
  harm own 0 0 none
  harm own 1 1 none
  tick 0
  harm own 1 1 0
  harm desk 1 7 0 no
  harm desk 1 none 0 no
  $ grep differs said; grep -o 'longest loan .*' said
  tokentree: node 1 differs at microsecond 2950000: parent
  tokentree: node 1 differs at microsecond 2960000: ticket of the loan
  tokentree: node 1 differs at microsecond 2985000: ticket of the loan
  longest loan 25000 microseconds to ticket 7 at node 1

Node 0 ticks and sends its first frame. Node 1 takes the frame, which acknowledges its number, so that it goes on to the
next one. It ticks twice, by which node 0 is its parent. A stretch after all entries sets up that.

  $ sender >two/record-0.0; taker >two/record-1.0; tokentree gather two --from 1 2>said
  harm own 0 0 none
  harm own 1 2 0
  harm counters 1 0 1 0
