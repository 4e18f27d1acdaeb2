`simulate` names each line that it refuses, and then shows the state to which the others lead. Here the first, the
second and the last line are refused.

  $ printf 'tick 2\nsend 0 0\ntick 0\nTick 0' >four.events
  $ tokentree simulate two.toml four.events | tee text
  line 1: NoNode
  line 2: NoLink
  line 4: Unread
  node 0 distance 0 parent none token no lent none waiting 0
  node 1 distance 2 parent none token no lent none waiting 0
  link 0 1 items 0
  link 1 0 items 0
  privileged 0 lending 0
  sweeps 0 of 69

If its output has too little room, it ends with a fault, and has written the front of that.

  $ in_rooms 3 text "$(seq 0 "$(wc -c <text)")" tokentree simulate two.toml four.events
