`measure` scrambles a network, and shows after how many sweeps it served again.

By each order of events, two nodes serve by the sharp bound, 35, as is proved, and a run is the same each time. Their
links are stable by 6 sweeps, their tree stands by 18, and their ring by 34. The rows of --csv are of the same runs as
the lines of --table.

  $ run() {
  >     seed=$1
  >     shift
  >     measure="tokentree measure two.toml --runs 1 --seed $seed $*"
  >     $measure --table >table && $measure --table | cmp - table || return
  >     $measure --csv >csv && $measure --csv | cmp - csv || return
  >     served=$(awk '/^seed/ { print $4 }' table)
  >     {
  >         echo "seed $seed sweeps $served"
  >         echo "runs 1"
  >         echo "sweeps least $served median $served most $served"
  >         echo "sharp 35"
  >         echo "sweeps-bound 69"
  >     } | cmp - table || return
  >     tail -n 1 csv | {
  >         IFS=, read -r row _events links tree ring row_served
  >         [ "$row" = "$seed" ] && [ "$links" -le 6 ] && [ "$tree" -le 18 ] && [ "$ring" -le 34 ] &&
  >             [ "$row_served" = "$served" ] && [ "$served" -le 35 ] && echo "Seed $seed serves in time."
  >     }
  > }
  $ run 0 --rounds
  Seed 0 serves in time.
  $ run 7 --rounds
  Seed 7 serves in time.
  $ run 7 --random
  Seed 7 serves in time.
  $ run 7 --schedule slow-link --share 25
  Seed 7 serves in time.
  $ run 7 --schedule slow-node --share 10
  Seed 7 serves in time.

If its output is refused, it ends with that fault. If the reader of its output is gone, it ends quietly.

  $ tokentree measure two.toml --runs 1 2>why >/dev/full; echo "status $?: $(tail -n 1 why)"
  status 1: tokentree: standard output cannot be written
  $ mkfifo pipe; exec 3<>pipe 4>pipe 3<&-
  $ tokentree measure two.toml --runs 1 >&4
  [141]
