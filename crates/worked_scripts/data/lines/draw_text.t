`draw` draws what is accepted, and counts the lines that are refused: here an event of an absent node, and a line that
spells no event. The two events make three moments, which share one column.

  $ printf 'tick 2\ntick 0\nTick 0' >refused.events
  $ tokentree draw two.toml refused.events --columns 1 >picture
  [3]
  $ grep -o '<desc>.*</desc>' picture
  <desc>2 events, 2 lines refused; at the end privileged 0, lending 0, sweeps since the last damage 0 of 69</desc>
  $ grep -o '>a column [^<]*<' picture
  >a column is 4 events, and shows the worst of them<

A folder can be opened, but not read. Nothing is drawn of it.

  $ tokentree draw two.toml .
  tokentree: the events cannot be read
  [1]

If its output has too little room, it ends with a fault, and has written the front of the picture.

  $ echo 'tick 0' >one.events
  $ tokentree draw two.toml one.events --columns 1 >whole
  $ size=$(wc -c <whole)
  $ in_rooms 0 whole "0 1 300 4000 $((size - 1)) $size" tokentree draw two.toml one.events --columns 1

It ends quietly if the reader of its output is gone.

  $ mkfifo pipe; exec 3<>pipe 4>pipe 3<&-
  $ tokentree draw two.toml one.events --columns 1 >&4
  [141]
