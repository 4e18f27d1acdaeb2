`measure --plot` writes a picture of the runs to a file. Here these are the runs with the seeds 7 and 8.

Both runs serve by the sharp bound, 35, as is proved. Links stand by 6 sweeps, and the ring by one less than the sharp
bound. Node 1 is 1 away from the root, so the tree stands by 6 + 4 * (1 + 2).

  $ tokentree measure two.toml --runs 2 --seed 7 --csv --plot plot.svg >rows
  $ has() { grep -qF "$1" plot.svg || echo "not there: $1"; }
  $ has '2 runs of 2 nodes from scrambled worlds, seeds from 7 on; 2 of them served by sweep 35'
  $ has '>proved by 6<'
  $ has '>proved by 18<'
  $ has '>proved by 34<'
  $ has '>proved by 35<'
  $ has '</svg>'

The axis of sweeps begins at 72 and goes on to 64. It comes to 1 after a step of 91 units, and doubles with each of six
more steps. So 6 stands at 390, 18 at 538, 34 at 623, and 35 at 626. A line goes up there from the ground, 378, to the
height of its layer.

  $ has 'd="M390 378L390 114"'
  $ has 'd="M538 378L538 98"'
  $ has 'd="M623 378L623 82"'
  $ has 'd="M626 378L626 66"'
  $ has '>64<'
  $ has '>75 %<'

The curve of a layer goes on from the ground to each number of sweeps after which the layer stood in some run. There it
goes up by each run in which that is so. Four runs are 240 high, and each of them 60. The curves of four runs are
computed here from their rows, layer by layer. A part of a step is rounded down.

  $ tokentree measure two.toml --runs 4 --seed 7 --csv --plot plot.svg >rows
  $ has '4 runs of 2 nodes from scrambled worlds, seeds from 7 on; 4 of them served by sweep 35'
  $ awk -F , '
  >     function place(sweeps,    x, power, part) {
  >         x = sweeps > 0 ? 163 : 72
  >         for (power = 1; power < sweeps; power *= 2) {
  >             part = sweeps - power < power ? sweeps - power : power
  >             x += int(91 * part / power)
  >         }
  >         return x
  >     }
  >     NR > 1 { for (layer = 3; layer <= 6; layer++) stood[layer, $layer]++ }
  >     END {
  >         for (layer = 3; layer <= 6; layer++) {
  >             steps = "M72 378"
  >             by = 0
  >             for (sweeps = 0; sweeps <= 35; sweeps++) {
  >                 by += stood[layer, sweeps]
  >                 if (stood[layer, sweeps]) steps = steps "H" place(sweeps) "V" (378 - 60 * by)
  >             }
  >             print steps "H709"
  >         }
  >     }' rows >curves
  $ sed -n 's/^<path d="\(M72 378H[^"]*\)".*/\1/p' plot.svg | cmp - curves
  $ grep -c 'V138H709$' curves
  4
