`gather` in folders of records. Node 0 ticks at microsecond 1000, and sends its first frame at 1100. Node 1, whose clock
is slow, takes that frame at 905, and ticks at 910 and 960.

Entries that are written here have bytes that were computed by hand. A tick has the kind 7; after 1 microsecond, its
third byte is 255 - 7 - 1. In LEB128, 1000 is 232, 7: 104 + 7 * 128, with 128 added to each byte but the last. So
1561239997 is 189, 195, 186, 232, 5: 61 + 67 * 128 + 58 * 128^2 + 104 * 128^3 + 5 * 128^4. The start of node 0's record
has the sum 1 + 232 + 7 + 807 + 0 = 1047 without its last byte, which is 255 - 1047 + 4 * 256.

  $ entry 7 1 | od -A n -t u1
     7   1 247
  $ note 1000 start 1561239997 0 | od -A n -t u1
     1 232   7 189 195 186 232   5   0 232

The events of both nodes stand in one order. Node 0 ticked and sent before node 1 took the frame, whatever the clocks
say. The time is that from 900, when the record of node 1 begins, to 1100.

  $ mkdir both; sender >both/record-0.0; taker >both/record-1.0
  $ tokentree gather both --network two.toml
  tick 0
  send 0 1
  take 0 1
  tick 1
  tick 1
  tokentree: nodes 2, events 5, time 200 microseconds
  tokentree: frames lost 0, harms 0, frames that nobody sent 0
  tokentree: differences 0
  tokentree: longest turn 50 microseconds, longest delay 0, loans 0

If no network is given, it is the one that is kept in the folder.

  $ cp two.toml both/record.toml; tokentree gather both >events 2>said; echo $?; cat events
  0
  tick 0
  send 0 1
  take 0 1
  tick 1
  tick 1

A list of 39 bytes fits into a file of at most 39 bytes. If the file takes one byte less, the command fails, and has
written all that has room.

  $ in_room() { (trap '' XFSZ; { prlimit --fsize="$1" tokentree gather both 2>&1 >front; echo "status $?"; } | cat); }
  $ in_room 39 | tail -n 1; cmp events front && wc -c <front
  status 0
  39
  $ in_room 38; head -c 38 events | cmp - front && wc -c <front
  tokentree: standard output: File too large (os error 27)
  tokentree: standard output cannot be written
  status 1
  38

Nothing is printed on standard output if the record of a node is not there, or is empty.

  $ mkdir alone; sender >alone/record-0.0; tokentree gather alone --network two.toml
  tokentree: node 1 has no record in alone
  [1]
  $ : >alone/record-1.0; tokentree gather alone --network two.toml
  tokentree: node 1 has no record in alone
  [1]

Nor is it if a file is a folder, or is no record: a text, or a record that begins with a deed, here a tick.

  $ mkdir folded folded/record-1.0; sender >folded/record-0.0; tokentree gather folded --network two.toml
  tokentree: cannot read folded/record-1.0
  [1]
  $ echo 'tick 0' >alone/record-1.0; tokentree gather alone --network two.toml
  tokentree: alone/record-1.0 is no record of this version
  [1]
  $ entry 7 1 >alone/record-1.0; tokentree gather alone --network two.toml
  tokentree: alone/record-1.0 is no record of this version
  [1]

Nor is it if a record is of another network, by its number, or of another node.

  $ { note 900 start 1561239998 1; taker | tail -c +11; } >alone/record-1.0; tokentree gather alone --network two.toml
  tokentree: alone/record-1.0 is of another network
  [1]
  $ { note 900 start 1561239997 0; taker | tail -c +11; } >alone/record-1.0; tokentree gather alone --network two.toml
  tokentree: alone/record-1.0 is the record of node 0
  [1]

Nor is it if there is no such folder, if the file that is given has no network, or if no network is kept.

  $ tokentree gather absent --network two.toml
  tokentree: there is no folder absent
  [1]
  $ tokentree gather absent
  tokentree: there is no folder absent
  [1]
  $ tokentree gather alone --network absent.toml
  tokentree: absent.toml: No such file or directory (os error 2)
  tokentree: network Unreadable
  [1]
  $ tokentree gather alone
  tokentree: no network is kept in alone/record.toml (network Unreadable); give --network FILE
  [1]
