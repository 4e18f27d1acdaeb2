State files that a node does not read, each with the first of its faults. The node starts with the default state then.

A file of node 1 of two nodes has another first word, a ring value of 7, which is the modulus, or another node's id. The
last file has a number too many.

  $ state_file TKT9 2 1 1 2 none 0 0 0 2 none 0 2 none 0 0 | begins_from two.toml 1
  start default Magic
  $ state_file TKT1 2 1 1 2 none 0 0 0 2 none 0 2 none 0 7 | begins_from two.toml 1
  start default Range
  $ state_file TKT1 2 1 1 2 none 0 0 0 2 none 0 2 none 0 0 | begins_from two.toml 0
  start default Shape
  $ state_file TKT2 2 1 1 1 2 none 0 0 0 2 none 0 2 none 0 0 | begins_from two.toml 0
  start default Shape
  $ state_file TKT2 2 1 1 1 1 0 0 4 3 1 0 6 0 none 5 4 0 | begins_from two.toml 1
  start default Long

Of 1277 bytes, one more than the longest state has, the first four are no word.

  $ head -c 1277 /dev/zero | tr '\0' T | begins_from two.toml 1
  start default Magic

Bytes of junk are no word, and no neighbours of the middle of a star of 64 nodes, since two of them make 2570 or more.
Its 63 ports have 1260 bytes.

  $ tokentree junk 17 100 >junk; tokentree network star 64 --capacity 4096 >star.toml
  $ for length in 0 3 4 16 1300; do head -c "$length" junk | begins_from two.toml 1; done | uniq -c
        2 start default Short
        3 start default Magic
  $ after_header() { { state_file TKT2 64 0 4096 63 64 63; head -c "$1" junk; } | begins_from star.toml 0; }
  $ for length in 0 1259 1260 1300; do after_header "$length"; done | uniq -c
        2 start default Short
        2 start default Shape

The front of a file is short. The header has 14 bytes.

  $ state_file TKT1 2 1 1 2 none 0 0 0 2 none 0 2 none 0 0 >whole; wc -c <whole
  34
  $ for length in 0 3 4 13 14 33; do head -c "$length" whole | begins_from two.toml 1; done | uniq -c
        6 start default Short
  $ begins_from two.toml 1 <whole
  start loaded

Node 2 of a line, joined to node 1 alone, was saved when links held one item. Now they hold two.

  $ network 3 0 '[0, 1], [1, 2]' >line.toml; network 3 0 '[0, 1], [1, 2], [0, 2]' | sed 's/ity = 1/ity = 2/' >wider.toml
  $ state_file TKT2 3 2 1 1 2 1 1 3 2 2 1 5 1 0 6 5 | begins_from wider.toml 2
  start default Shape

Node 0 of a line was saved when it was joined to both other nodes. `changed PLACE NUMBER` is its file with another
number at a place, counted from 0.

  $ saved='3 0 1 2 3 2 1 4 3 1 0 12 0 none 11 10 2 0 4 3 2 0 3 2 12 12'
  $ changed() { state_file TKT2 $(echo $saved | awk -v at="$1" -v number="$2" '{ $(at + 1) = number; print }'); }
  $ changed 0 3 | begins_from line.toml 0
  start loaded

`faults FAULT PLACE:NUMBER..` prints each change with which the file does not have that fault.

  $ faults() {
  >     fault=$1
  >     shift
  >     for change; do
  >         got=$(changed "${change%:*}" "${change#*:}" | begins_from line.toml 0)
  >         [ "$got" = "start default $fault" ] || echo "$change: $got"
  >     done
  > }

The first numbers are of another network or node, the degree is not 1 or 2, and the neighbours do not ascend, or are not
other nodes.

  $ faults Shape 0:2 1:1 2:2 3:0 3:3 6:0 6:2 6:3 16:0 16:1 16:3

A distance is 3 at most, a parent 2, a number of a port 4, and a ring value 12. That holds for the node, for the port
that stays, and for the port that is dropped.

  $ faults Range 4:4 5:3 7:5 8:5 9:4 10:3 11:13 12:4 13:3 14:13 15:13
  $ faults Range 17:5 18:5 19:4 20:3 21:13 22:4 23:3 24:13 25:13

The first of two faults is said. These files are too short for a word, have another word, or end in their header.

  $ for text in '' TKT TKT9 tkt2 'TKT1\0\011\0\011\0\011\0\0\0' 'TKT2\0\011\0\011\0\011\0\0\0\0\0'; do
  >     printf "$text" | begins_from line.toml 0
  > done
  start default Short
  start default Short
  start default Magic
  start default Magic
  start default Short
  start default Short

These have 55, 56 or 57 bytes, and one number is another one; the last number is the one that was there. The file has 56
bytes as it was saved, and 36 if the degree is 1.

  $ resized() { { changed "$1" "$2"; printf '\0'; } | head -c "$3" | begins_from line.toml 0; }
  $ resized 1 1 55
  start default Shape
  $ resized 6 0 55
  start default Short
  $ resized 4 4 55
  start default Short
  $ resized 3 1 56
  start default Long
  $ resized 6 0 57
  start default Shape
  $ resized 25 13 57
  start default Range
  $ resized 0 3 57
  start default Long

Nothing is there: neither a file nor what a link leads to. Something else is there, which the node does not wait for.

  $ rm -r run; mkdir run; begins two.toml 1
  start default Absent
  $ ln -s linked run/state-1.tkt; begins two.toml 1
  start default Absent
  $ ln -sf no/folder run/state-1.tkt; begins two.toml 1
  start default Absent
  $ ln -sf state-1.tkt run/state-1.tkt; begins two.toml 1
  start default Device
  $ ln -sf /dev/null run/state-1.tkt; begins two.toml 1
  start default Device
  $ ln -sf /dev/full run/state-1.tkt; begins two.toml 1
  start default Device
  $ rm run/state-1.tkt; mkfifo run/state-1.tkt; begins two.toml 1
  start default Device
  $ rm run/state-1.tkt; mkdir run/state-1.tkt; begins two.toml 1
  start default Device
