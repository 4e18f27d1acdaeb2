A node takes the frames that its neighbour sends, and nothing else. Node 0 of a line hears bytes in the name of node 1.

A frame among three nodes is `F`, its number, what it acknowledges, a distance, a parent and a ring value: each has four
hexadecimal digits. `hears NUMBER COMMANDS` has node 0 hear what commands print over a new connection, until it
acknowledges the frame of this number.

  $ cp line.toml net.toml; start 0 --record
  $ hears() {
  >     tokentree --connect run/node-0.sock \
  >         "echo H0001; $2; while read -r line; do case \$line in F????000$1*) exit ;; esac; done"
  > }

A connection ends after a frame and half a line. The next one begins with the other half, and then has a frame. Both
halves would make a frame of number 0. What is sent is written at once, in pieces of 7 bytes, or byte by byte.

  $ pieces() { hears "$1" "printf '$2' | dd bs=$3 status=none"; }
  $ pieces 1 'F0001000000010000000c\nF000000000' 512; pieces 2 '0010000000c\nF0002000000010000000c\n' 512
  $ pieces 3 'F0003000000010000000c\nF000000000' 512; pieces 4 '0010000000c\nF0004000000010000000c\n' 7
  $ pieces 5 'F0005000000010000000c\nF000000000' 512; pieces 6 '0010000000c\nF0006000000010000000c\n' 1

Ten thousand lines of junk come, and then two frames. Four of the lines are as long as a frame's and begin like one, but
none is one.

  $ tokentree junk 7 10000 >junk; wc -c <junk; grep -c '^F.\{20\}$' junk
  211725
  4
  $ hears 7 'cat junk; echo F0000000000010000000c; echo F0007000000010000000c'

The record has each frame that was taken: its sender, its number, what it acknowledges, its distance, its parent plus 1,
and its ring value.

  $ stop 0; left 0; entries run/record-0.0 | grep takes
  takes 1 1 0 1 1 12
  takes 1 2 0 1 1 12
  takes 1 3 0 1 1 12
  takes 1 4 0 1 1 12
  takes 1 5 0 1 1 12
  takes 1 6 0 1 1 12
  takes 1 0 0 1 1 12
  takes 1 7 0 1 1 12
