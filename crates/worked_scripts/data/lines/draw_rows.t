The picture of a run: lanes of how each node was, and curves of how many nodes were privileged and lent. All places
were computed by hand.

A fault gives each of two nodes a token, which it lends. Its eight harms make nine moments: the start, and one after
each harm.

  $ { echo '# a token at each'; forged; } >forged.events
  $ tokentree draw two.toml forged.events >forged.svg

The headline shows the network. The words of the run stand twice, the first time as the description. The legend says
what a column is.

  $ grep -o '>nodes [^<]*<' forged.svg
  >nodes 2, edges 1, root 0, capacity 1, lease 0, sweeps to recover 69, sharp 35<
  $ grep -o '>[0-9]* events, [^<]*<' forged.svg
  >8 events, 0 lines refused; at the end privileged 2, lending 2, sweeps since the last damage 0 of 69<
  >8 events, 0 lines refused; at the end privileged 2, lending 2, sweeps since the last damage 0 of 69<
  $ grep -o '>a column [^<]*<' forged.svg
  >a column is 1 event<

Columns are 24 wide from 142 on, so nine are 216 wide. Lanes are 32 high from 176 on. A lane's ground is 2 less high:
that of node 0 goes from 177 to 207, round 192, and that of node 1 from 209 to 239, round 224.

  $ grep -o '<rect [^>]* fill="#e6edf2">' forged.svg | grep 'x="142"'
  <rect x="142" y="177" width="216" height="30" fill="#e6edf2">
  <rect x="142" y="209" width="216" height="30" fill="#e6edf2">

At the start the distance of each node is 2, which is wrong. That of the root is right after the first harm, and that
of node 1 after the second. Node 0 is privileged from event 4 on, and lends from event 7 on. Node 1 is privileged from
event 6 on, and lends from event 8 on. So the bars of node 0 begin in the columns 0, 4 and 7, at 142, 238 and 310. The
bars of node 1 begin in the columns 0, 6 and 8, at 142, 286 and 334. Of the 30 of a lane a wrong node has a half, a
privileged one three quarters, rounded down, and one that lends all.

  $ bars() {
  >     pen='fill="none" stroke="#\([^"]*\)" stroke-width="\([0-9]*\)"'
  >     sed -n 's/^<path d="\([M0-9 h]*h[0-9]*\)" '"$pen"'.*/\2 \1, \3 high/p' "$1" |
  >         sed 's/^8a8f94/wrong/; s/^f2b705/privileged/; s/^a3142e/lends/'
  > }
  $ bars forged.svg
  wrong M142 192h24, 15 high
  privileged M238 192h72, 22 high
  lends M310 192h48, 30 high
  wrong M142 224h48, 15 high
  privileged M286 224h48, 22 high
  lends M334 224h24, 30 high

A bar of a loan has its ticket in its middle.

  $ sed -n 's/^<text x="\([0-9]*\)" y="\([0-9]*\)" [^>]*fill="#ffffff">\([0-9]*\)<.*/\3 at \1 \2/p' forged.svg
  5 at 334 196
  6 at 346 228

The curves have their zero at 328, and a node counts 24. A node that lends is privileged, too.

  $ curves() {
  >     sed -n 's/^<path d="\(M142 [0-9VH]*\)" fill="none" stroke="#\([0-9a-f]*\)".*/\2 \1/p' "$1" |
  >         sed 's/^f2b705/privileged/; s/^a3142e/lending/'
  > }
  $ curves forged.svg
  privileged M142 328V328H166V328H190V328H214V328H238V304H262V304H286V280H310V280H334V280H358
  lending M142 328V328H166V328H190V328H214V328H238V328H262V328H286V328H310V304H334V280H358

A mark of damage stands over the middle of each column but the first.

  $ grep -o 'M[0-9]* 134l' forged.svg | paste -s -d ' ' -
  M178 134l M202 134l M226 134l M250 134l M274 134l M298 134l M322 134l M346 134l

Nine columns are enough for that. In at most four columns there are four moments, four and one: at the fifth moment and
at the ninth each two of four columns became one. A column shows the worst of its moments. So node 0 lends from the
second column on, at 166. Node 1 is privileged in the second column, and lends in the third one.

  $ tokentree draw two.toml forged.events --columns 9 | cmp - forged.svg
  $ tokentree draw two.toml forged.events --columns 4 >four.svg
  $ grep -o '<desc>8 events, 0 lines refused' four.svg
  <desc>8 events, 0 lines refused
  $ grep -o '>a column [^<]*<' four.svg
  >a column is 4 events, and shows the worst of them<
  $ bars four.svg
  wrong M142 192h24, 15 high
  lends M166 192h48, 30 high
  wrong M142 224h24, 15 high
  privileged M166 224h24, 22 high
  lends M190 224h24, 30 high
  $ curves four.svg
  privileged M142 328V328H166V280H190V280H214
  lending M142 328V328H166V304H190V280H214

No sweep ends in this run. So there is no moment after the first sweep, and no column. The events are counted all the
same.

  $ tokentree draw two.toml forged.events --columns 4 --from 1 --to 9 >none.svg
  $ grep -o '<desc>8 events, 0 lines refused' none.svg
  <desc>8 events, 0 lines refused
  $ grep -o '<rect x="142" [^>]* fill="#e6edf2">' none.svg
  <rect x="142" y="177" width="0" height="30" fill="#e6edf2">
  <rect x="142" y="209" width="0" height="30" fill="#e6edf2">
  $ bars none.svg
  $ curves none.svg
  privileged M142 328
  lending M142 328

In a sweep of two nodes both tick, and each link hands over what was sent within the sweep. Here are two sweeps, and
one tick after them: the sweeps end after the events 6 and 12, and there are 13 events. The axis numbers each fifth
event, at the left of its column, and the sweeps are numbered over the middle of the columns in which they end.

  $ sweep() { printf 'tick 0\ntick 1\nsend 0 1\ntake 0 1\nsend 1 0\ntake 1 0\n'; }
  $ { sweep; sweep; echo 'tick 0'; } >swept.events
  $ numbers() {
  >     sed -n "s/^<text x=\"\([0-9]*\)\" y=\"$1\" [^>]*>\([0-9]*\)<.*/\2 at \1/p" shown.svg | paste -s -d , -
  > }
  $ shown() {
  >     tokentree draw two.toml "$1" --columns 20 --from "$2" --to "$3" >shown.svg
  >     width=$(sed -n 's/^<rect x="142" y="177" width="\([0-9]*\)".*/\1/p' shown.svg)
  >     echo "$((width / 24)) moments; events $(numbers 348); sweeps $(numbers 162)"
  > }
  $ shown swept.events 0 9
  14 moments; events 0 at 142,5 at 262,10 at 382; sweeps 1 at 298,2 at 442

From the first sweep on, six events come before the first moment that is shown, and so event 10 is in the fifth column.
The first sweep ends at that moment itself.

  $ shown swept.events 1 9
  8 moments; events 10 at 238; sweeps 1 at 154,2 at 298
  $ shown swept.events 1 1
  6 moments; events 10 at 238; sweeps 1 at 154

From the second sweep on, twelve events and one sweep come before that moment. The second moment is the last one. With
three more ticks event 15 is in the fourth column.

  $ shown swept.events 2 9
  2 moments; events ; sweeps 2 at 154
  $ printf 'tick 0\ntick 0\ntick 0\n' | cat swept.events - >longer.events
  $ shown longer.events 2 9
  5 moments; events 15 at 214; sweeps 2 at 154

The lanes stand in the order in which the token comes to the nodes first. To the root's smallest child, and to all
below that, it comes last: on this square to node 1, and then to node 3.

  $ network 4 0 '[0, 1], [0, 2], [1, 3], [2, 3]' >square.toml
  $ tokentree draw square.toml - </dev/null | sed -n 's/.* y="\([0-9]*\)".*>\(node [0-9]\)<.*/\2 at \1/p'
  node 0 at 196
  node 2 at 228
  node 1 at 260
  node 3 at 292
