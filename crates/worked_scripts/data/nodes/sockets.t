What node 0 sends over its sockets. It runs alone, and its links hold one frame too few.

  $ sed 's/capacity = 64/capacity = 63/' line.toml >net.toml; start 0; cat out-0
  start default Absent
  ready

While the node stands still, 65 lookers connect, so all come within one turn. The node has room for 64: each of these is
shown the line of the root, and the other one nothing. No looker reads before the node has answered a client.

  $ kill -STOP "$process_0"; lookers=
  $ for place in $(seq 65); do
  >     tokentree --connect run/look-0.sock \
  >         ": >here-$place; until test -e seen; do sleep 0.1; done; cat >shown-$place" & lookers="$lookers $!"
  > done
  $ all_here() { [ "$(ls | grep -c '^here-')" -eq 65 ]; }
  $ at_last all_here; kill -CONT "$process_0"; at_last stands 0 0; : >seen; wait $lookers
  $ find . -name 'shown-*' -empty | wc -l
  1
  $ grep -lx '{"node":0,"distance":0,"parent":null,"token":.*}' shown-* | wc -l
  64
  $ cat shown-* | wc -l
  64

A line that means nothing is answered so.

  $ tokentree --connect run/desk-0.sock 'echo loc; read -r line; echo "$line" >&2'
  unknown

Few frames are under way to a neighbour that reads nothing, here 1 to 6: a second is time for 100. A frame has 22 bytes.

  $ linked() { tokentree --connect run/look-0.sock 'cat >&2' 2>&1 | grep -q '{"node":1,"up":true,'; }
  $ tokentree --connect run/node-0.sock 'echo H0001; until test -e over; do sleep 0.1; done; cat >frames' & neighbour=$!
  $ at_last linked; sleep 1; stop 0; left 0
  tokentree: capacity 63 is less than 64: 36 frames may be under way on a link; give the network capacity 64 or more
  $ : >over; wait "$neighbour"; count=$(($(wc -c <frames) / 22)); [ "$count" -ge 1 ] && [ "$count" -le 6 ]
