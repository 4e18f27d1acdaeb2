`schedule` prints the events of a schedule. In a round each node ticks, and then each link carries so often that one
more item goes over than it holds.

  $ tokentree schedule two.toml --rounds 1 | tee round
  tick 0
  tick 1
  send 0 1
  take 0 1
  send 0 1
  take 0 1
  send 1 0
  take 1 0
  send 1 0
  take 1 0

If its output has too little room, it ends with a fault, and has written the front of the events. The last rooms are
about the size of a buffer.

  $ in_rooms 0 round "$(seq 0 86)" tokentree schedule two.toml --rounds 1
  $ tokentree schedule two.toml --rounds 300 >many
  $ in_rooms 0 many '0 1 8191 8192 8193 16384 1000000' tokentree schedule two.toml --rounds 300

Random steps have losses and clients only where these are asked for. With 100 losses of 100 takes, all takes are losses.

  $ kinds() {
  >     tokentree schedule two.toml --random 400 --seed 3 "$@" >steps || return
  >     for kind in lose take ask leave; do grep -q "$kind " steps && printf '%s ' "$kind"; done
  >     wc -l <steps
  > }
  $ kinds
  take 400
  $ kinds --loss 100
  lose 400
  $ kinds --clients
  take ask leave 400

A scramble writes every part of a network, here of three nodes in a line whose loans last 3 ticks at most. Each of its
harms is accepted, after those of other seeds too. Three are of distances, four of each of four ports, three of desks,
and four empty the links. The others put items on links: another program drew 1, 2, 1, 2 and 1 of these.

  $ network 3 3 '[0, 1], [1, 2]' >leased.toml
  $ for seed in 1 2 3 4 5; do tokentree schedule leased.toml --rounds 0 --scramble "$seed" | tee -a harms | wc -l; done
  27
  28
  27
  28
  27
  $ tokentree simulate leased.toml harms | grep '^line '
  [1]
