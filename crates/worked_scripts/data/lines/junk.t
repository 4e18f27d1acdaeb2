`junk` prints lines that are drawn from a seed. Another program computed these, from the definitions of the draws and of
the generator.

  $ tokentree junk 7 4 | tee lines
  +(==lkMfO]!#B{X}whq}R*SbyZPz$`#?5I3
  .Vnn)AQDz"jU}#08]yttOpOL9&sj
  "m&tt}YgWO#W2LhWdJ,J;NK%1m;}}T|l@);"x
  R3BHS:y^
  $ tokentree junk 7 0
  $ tokentree junk 0 2
  P*Kn2+/S'b=hmMrd#TUvK0"1oB
  {]NUJ%9"zsUkx#
  $ tokentree junk 4294967295 1
  [3c/~drGd/3U%9A/vul,:CgWN;Un8CP+U#e

If its output has too little room, it ends with a fault, and has written the front of the lines. The last rooms are
about the size of a buffer.

  $ in_rooms 0 lines "$(seq 0 112)" tokentree junk 7 4
  $ tokentree junk 7 1000 >many
  $ in_rooms 0 many '0 1 8191 8192 8193 16384 1000000' tokentree junk 7 1000
