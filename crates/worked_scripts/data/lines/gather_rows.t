What `gather` finds in the records of two nodes. Node 0 ticks at microsecond 1000, and sends its first frame at 1100.
The clock of node 1 is slow.

  $ mkdir run; cp two.toml run/record.toml; sender >run/record-0.0

Node 1 takes that frame at 1137, 37 microseconds after it was sent, and ticks at 1142 and 1192. Its record begins at
900, 292 microseconds before its last tick.

  $ taker 1137 >run/record-1.0; tokentree gather run
  tick 0
  send 0 1
  take 0 1
  tick 1
  tick 1
  tokentree: nodes 2, events 5, time 292 microseconds
  tokentree: frames lost 0, harms 0, frames that nobody sent 0
  tokentree: differences 0
  tokentree: longest turn 50 microseconds, longest delay 37, loans 0

A frame that nobody sent comes last. Harms put it on its link, and then the one under way on its link again.

  $ taker 905 3 >run/record-1.0; tokentree gather run
  tick 0
  send 0 1
  lose 0 1 0
  harm frame 0 1 3 0 2 none 0
  take 0 1
  harm frame 0 1 0 0 2 none 0
  tick 1
  tick 1
  tokentree: nodes 2, events 8, time 200 microseconds
  tokentree: frames lost 0, harms 2, frames that nobody sent 1
  tokentree: differences 0
  tokentree: longest turn 50 microseconds, longest delay 0, loans 0

The last tick of node 1 has three bytes: its kind, 50 microseconds, the check. A record that is cut within it is read up
to there. A record that is cut in front of it is whole. No entry has the kind 120, which is the byte of `x`, so a record
with that byte there is damaged.

  $ taker >whole; head -c -1 whole >run/record-1.0; tokentree gather run
  tick 0
  send 0 1
  take 0 1
  tick 1
  tokentree: run/record-1.0 ends within an entry, after microsecond 910
  tokentree: nodes 2, events 4, time 200 microseconds
  tokentree: frames lost 0, harms 0, frames that nobody sent 0
  tokentree: differences 0
  tokentree: longest turn 0 microseconds, longest delay 0, loans 0
  [1]
  $ head -c -3 whole >run/record-1.0; tokentree gather run
  tick 0
  send 0 1
  take 0 1
  tick 1
  tokentree: nodes 2, events 4, time 200 microseconds
  tokentree: frames lost 0, harms 0, frames that nobody sent 0
  tokentree: differences 0
  tokentree: longest turn 0 microseconds, longest delay 0, loans 0
  $ { head -c -3 whole; printf xxx; } >run/record-1.0; tokentree gather run 2>&1 | grep record
  tokentree: run/record-1.0 is damaged after microsecond 910

The second file of a record comes first if it begins earlier.

  $ { note 950 start 1561239997 1; note 960 tick; } >run/record-1.0
  $ head -c -3 whole >run/record-1.1; tokentree gather run 2>said
  tick 0
  send 0 1
  take 0 1
  tick 1
  tick 1
  $ rm run/record-1.1

Node 1 has the distance 1 when its record begins, which counts as no difference. At 950 it has another parent, and it
lends to ticket 7 from 960 to 985. The harms come before what node 0 did, which is later by the clocks.

  $ harmed 900 950 960 985 >run/record-1.0; tokentree gather run
  harm own 1 1 none
  harm own 1 1 0
  harm desk 1 7 0 no
  harm desk 1 none 0 no
  tick 0
  send 0 1
  tokentree: node 1 differs at microsecond 950: parent
  tokentree: node 1 differs at microsecond 960: ticket of the loan
  tokentree: node 1 differs at microsecond 985: ticket of the loan
  tokentree: nodes 2, events 6, time 200 microseconds
  tokentree: frames lost 0, harms 4, frames that nobody sent 0
  tokentree: differences 3
  tokentree: longest turn 0 microseconds, longest delay 0, loans 1, longest loan 25 microseconds to ticket 7 at node 1
