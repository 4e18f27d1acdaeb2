Films of two nodes, beat by beat, and what their pages say of each still. All places and numbers were computed by hand.

A film of two seconds has 20 beats. The first still is held for 10 of them, and all stills share the other 10. Then the
last still is held for 3 seconds more, which is 30 beats.

`film` makes a page with a film of two seconds, of the events of standard input. `tracks` shows each part of the film:
its last symbol, its place, and each symbol with its beats. First come the sweeps, the damage, the edges, the frames
that wait, the frame that moves, and the arrows of the nodes to their parents. Then come how each node stands, its
distance, its ticket and its lightning. `stills` shows what the page says of each still, and that no sweep has ended.

  $ film() { cat >events; tokentree draw "$1" events --film --page --seconds 2 >film; }
  $ tracks() {
  >     place='x="\([0-9]*\)" y="\([0-9]*\)"'
  >     sed -n 's/^<use href="\([^"]*\)" '"$place"'><animate .* values="\([^"]*\)".*/\1 at \2 \3: \4/p' film |
  >         awk '{
  >             symbols = split($NF, symbol, ";")
  >             line = $1 " " $2 " " $3 " " $4
  >             beats = 0
  >             for (k = 1; k <= symbols; k++) {
  >                 beats++
  >                 if (k < symbols && symbol[k + 1] == symbol[k]) continue
  >                 line = line " " symbol[k] " " beats
  >                 beats = 0
  >             }
  >             print line
  >         }'
  > }
  $ stills() {
  >     item='<li data-beats="\([0-9]*\)">\([^<]*\)'
  >     sed -n "s/.*$item; 0 sweeps since the last damage\.<.*/\1 beats: \2/p" film
  > }

One harm writes the place of node 1. The first of two stills has 5 beats of its own, so 15 in all, and the last one has
5 and 30.

The nodes stand in the middle of a page that is 720 wide: node 0 at 136, and node 1 96 below it, at 232. The graph ends
40 below that. The sweeps and the damage stand 20 lower, and the damage 110 from the right end.

The edge is one of the true tree all the time: its line is strong (b), and never goes. No frame moves. Node 0 keeps the
distance 2, so it stands wrong (w), and has no parent (n). Node 1 has the distance 2 and no parent at the start, and
then the distance 1 and the root, which is its true place (p). Lightning (z) strikes node 1, and not the root. A ticket
would stand to the right of its node, 24 and half of the width of the widest words, 49, from its middle, and 7 lower.

  $ echo 'harm own 1 1 0' | film two.toml
  $ tracks
  #s0 at 40 292: #s0 50
  #y at 610 292: #n 15 #y 35
  #b0-1 at 0 0: #b0-1 50
  #n at 0 0: #n 50
  #n at 0 0: #n 50
  #a1-0 at 0 0: #n 15 #a1-0 35
  #w at 360 136: #w 50
  #d2 at 360 136: #d2 50
  #n at 433 143: #n 50
  #n at 360 136: #n 50
  #p at 360 232: #w 15 #p 35
  #d1 at 360 232: #d2 15 #d1 35
  #n at 433 239: #n 50
  #z at 360 232: #n 15 #z 35
  $ stills
  15 beats: The start: 2 wrong, 0 privileged, 0 lending
  35 beats: Event 1, harm own 1 1 0: damage, 1 wrong, 0 privileged, 0 lending

A film without a page is the same.

  $ sed -n '/^<svg /,/^<\/svg>/p' film >within
  $ tokentree draw two.toml events --film --seconds 2 | cmp - within

A frame is sent, and is under way when damage strikes again. Four stills share the 10 beats: 3, 3, 2 and 2. The dot of
the frame goes off in the third still, and waits from beat 18 on, in the fourth. No frame goes back.

  $ printf 'harm own 1 1 0\nsend 0 1\nharm own 1 2 none\n' | film two.toml
  $ stills
  13 beats: The start: 2 wrong, 0 privileged, 0 lending
  3 beats: Event 1, harm own 1 1 0: damage, 1 wrong, 0 privileged, 0 lending
  2 beats: Event 2, send 0 1: 1 wrong, 0 privileged, 0 lending
  32 beats: Event 3, harm own 1 2 none: damage, 2 wrong, 0 privileged, 0 lending
  $ tracks | grep '#[mo]'
  #m0-1 at 0 0: #n 18 #m0-1 32
  #n at 0 0: #n 16 #o0-1 2 #n 32
  $ grep -o 'id="m[^"]*"' film
  id="m0-1"

A fault gives each node a token, which it lends. The harms 3 and 5 change nothing that is seen, so each shares a still
with the harm before it. Seven stills share the 10 beats: the first three have 2 of them, the others 1. The film begins
with the start, and ends with the last moment: both nodes are in their true places, privileged (g), and lend (l).

  $ forged | film two.toml
  $ stills
  12 beats: The start: 2 wrong, 0 privileged, 0 lending
  2 beats: Event 1, harm own 0 0 none: damage, 1 wrong, 0 privileged, 0 lending
  2 beats: Event 3, harm staged 0 1 0 none 0: damage, 0 wrong, 0 privileged, 0 lending
  1 beats: Event 5, harm staged 1 0 1 0 0: damage, 0 wrong, 1 privileged, 0 lending
  1 beats: Event 6, harm copy 1 0 0 none 1: damage, 0 wrong, 2 privileged, 0 lending
  1 beats: Event 7, harm desk 0 5 0 no: damage, 0 wrong, 2 privileged, 1 lending
  31 beats: Event 8, harm desk 1 6 0 no: damage, 0 wrong, 2 privileged, 2 lending
  $ tracks
  #s0 at 40 292: #s0 50
  #y at 610 292: #n 12 #y 38
  #b0-1 at 0 0: #b0-1 50
  #n at 0 0: #n 50
  #n at 0 0: #n 50
  #a1-0 at 0 0: #n 14 #a1-0 36
  #l at 360 136: #w 12 #p 4 #g 2 #l 32
  #d0 at 360 136: #d2 12 #d0 38
  #t5 at 433 143: #n 18 #t5 32
  #n at 360 136: #n 12 #z 4 #n 2 #z 1 #n 31
  #l at 360 232: #w 14 #p 3 #g 2 #l 31
  #d1 at 360 232: #d2 14 #d1 36
  #t6 at 433 239: #n 19 #t6 31
  #z at 360 232: #n 16 #z 2 #n 1 #z 31
  $ grep -o '>[0-9]* stills[^<]*<' film
  >7 stills; calm stretches are shown by their last moment<

This film has room for nine stills after the first. Eight harms before the same fault give node 1 other places. Of the
sixteen moments after the start all but those of the events 11 and 13 differ from the one before, and there is damage at
each. At the tenth of these fourteen each two of nine stills become one, and the ninth is left. From then on each two
such moments share a still: those of the events 10 and 12, and those of 14 and 15. The first of these stills is that of
event 13, too. Such a film also ends with the last moment.

  $ printf 'harm own 1 1 0\nharm own 1 2 none\n' | repeat 4 >others
  $ forged | cat others - | film two.toml
  $ stills
  12 beats: The start: 2 wrong, 0 privileged, 0 lending
  1 beats: Event 2, harm own 1 2 none: damage, 2 wrong, 0 privileged, 0 lending
  1 beats: Event 4, harm own 1 2 none: damage, 2 wrong, 0 privileged, 0 lending
  1 beats: Event 6, harm own 1 2 none: damage, 2 wrong, 0 privileged, 0 lending
  1 beats: Event 8, harm own 1 2 none: damage, 2 wrong, 0 privileged, 0 lending
  1 beats: Event 9, harm own 0 0 none: damage, 1 wrong, 0 privileged, 0 lending
  1 beats: Event 13, harm staged 1 0 1 0 0: damage, 0 wrong, 1 privileged, 0 lending
  1 beats: Event 15, harm desk 0 5 0 no: damage, 0 wrong, 2 privileged, 1 lending
  31 beats: Event 16, harm desk 1 6 0 no: damage, 0 wrong, 2 privileged, 2 lending
  $ grep -o '>[0-9]* stills[^<]*<' film
  >9 stills, fewer than moments that count: each is the last of a stretch<
  $ tracks | cut -d : -f 1 | grep '#[adlt]'
  #a1-0 at 0 0
  #l at 360 136
  #d0 at 360 136
  #t5 at 433 143
  #l at 360 232
  #d1 at 360 232
  #t6 at 433 239

Tickets keep clear of lines. Nodes 1 and 2 of a triangle stand beside each other, 132 apart, at 426 and at 294: the tour
comes to node 2 first. To the right of node 2 is the line to node 1, so its ticket stands to the left, 73 from its
middle. That of node 1 stands to the right.

  $ network 3 0 '[0, 1], [0, 2], [1, 2]' >triangle.toml
  $ printf 'harm desk 2 5 0 no\nharm desk 1 6 0 no\n' | film triangle.toml
  $ grep -o '<use href="#t[0-9]*" x="[0-9]*" y="[0-9]*">' film
  <use href="#t6" x="499" y="239">
  <use href="#t5" x="221" y="239">
