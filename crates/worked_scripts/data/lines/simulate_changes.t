Events in which edges join and go, and the states that they lead to.

An edge of a square goes, the one between nodes 1 and 3. It cannot go again, nor can the last edge of node 3. No edge
can join a node to itself, to a neighbour, or to a node that there is not. Only the links that are left are shown.

  $ network 4 0 '[0, 1], [0, 2], [1, 3], [2, 3]' >square.toml
  $ tokentree simulate square.toml - <<'END'
  > harm part 1 3
  > harm part 1 3
  > harm part 2 3
  > harm join 3 3
  > harm join 0 1
  > harm join 0 4
  > END
  line 2: NoLink
  line 3: Apart
  line 4: OutOfRange
  line 5: OutOfRange
  line 6: NoNode
  node 0 distance 4 parent none token no lent none waiting 0
  node 1 distance 4 parent none token no lent none waiting 0
  node 2 distance 4 parent none token no lent none waiting 0
  node 3 distance 4 parent none token no lent none waiting 0
  link 0 1 items 0
  link 0 2 items 0
  link 1 0 items 0
  link 2 0 items 0
  link 2 3 items 0
  link 3 2 items 0
  privileged 0 lending 0
  sweeps 0 of 461
  [3]

An item goes with its edge, and is not there when the edge comes back.

  $ printf 'send 1 3\nsend 2 3\nharm part 3 1\nharm join 3 1\n' | tokentree simulate square.toml -
  node 0 distance 4 parent none token no lent none waiting 0
  node 1 distance 4 parent none token no lent none waiting 0
  node 2 distance 4 parent none token no lent none waiting 0
  node 3 distance 4 parent none token no lent none waiting 0
  link 0 1 items 0
  link 0 2 items 0
  link 1 0 items 0
  link 1 3 items 0
  link 2 0 items 0
  link 2 3 items 1
  link 3 1 items 0
  link 3 2 items 0
  privileged 0 lending 0
  sweeps 0 of 461

The edge between nodes 1 and 3 goes, and as many rounds over the other edges follow as the bound has sweeps: node 3
finds its other parent. Where the token is then was not worked out, so it is cut from the lines.

  $ { echo 'harm part 1 3'; round 4 '0 1' '0 2' '1 0' '2 0' '2 3' '3 2' | repeat 461; } >parted
  $ tokentree simulate square.toml parted >end
  $ sed '/^privileged /d; s/ token .*//' end
  node 0 distance 0 parent none
  node 1 distance 1 parent 0
  node 2 distance 1 parent 0
  node 3 distance 2 parent 2
  link 0 1 items 0
  link 0 2 items 0
  link 1 0 items 0
  link 2 0 items 0
  link 2 3 items 0
  link 3 2 items 0
  sweeps 461 of 461

A star of 64 nodes round the root. Eight edges join it, one for each spare pair of links, and a ninth does not. After
one has gone, one more may join. The last edge of a leaf cannot go, and no edge joins two neighbours.

  $ leaves=$(seq -s ' ' 1 63)
  $ network 64 0 "$(printf '[0, %s], ' $leaves | sed 's/, $//')" >star.toml
  $ cat >joining <<'END'
  > harm join 1 2
  > harm join 1 3
  > harm join 1 4
  > harm join 1 5
  > harm join 1 6
  > harm join 1 7
  > harm join 1 8
  > harm join 1 9
  > harm join 1 10
  > harm part 0 11
  > harm part 0 2
  > harm join 1 10
  > harm join 1 11
  > harm join 1 10
  > END
  $ tokentree simulate star.toml joining >end
  [3]
  $ head -n 4 end
  line 9: NoSpare
  line 10: Apart
  line 13: NoSpare
  line 14: OutOfRange

63 edges, and nine that joined, and one that went: that makes 71 edges, of two links each. The bound is 4*2 + 4*65 +
48*63*63 + 1 = 190781.

  $ grep -c '^link ' end
  142
  $ grep -e '^link [12] ' -e '^link 0 2 ' end
  link 1 0 items 0
  link 1 2 items 0
  link 1 3 items 0
  link 1 4 items 0
  link 1 5 items 0
  link 1 6 items 0
  link 1 7 items 0
  link 1 8 items 0
  link 1 9 items 0
  link 1 10 items 0
  link 2 1 items 0
  $ tail -n 2 end
  privileged 0 lending 0
  sweeps 0 of 190781
