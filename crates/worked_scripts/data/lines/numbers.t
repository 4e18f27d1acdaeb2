Numbers on the command line: each has one spelling, decimal with no sign and no zero in front, and a range.

A row has the status of the line with the greatest allowed number, that number, one more, and the words around it, with
`@` for the number. The files of these lines do not exist: so the status of an accepted number is 1, or 0 if the line
prints no junk. The status of one more is 2, and so is that of each spelling that is no number.

  $ while read -r want most above words; do
  >     echo "$want $words" | sed "s/@/$most/" | statuses
  >     for spelling in $above +1 01 -1 1.0; do
  >         echo "2 $words" | sed "s/@/$spelling/" | statuses
  >     done
  > done <<'END'
  > 1 1200 1201 draw absent.toml - --columns @
  > 1 18446744073709551615 18446744073709551616 draw absent.toml - --from @
  > 1 18446744073709551615 18446744073709551616 draw absent.toml - --to @
  > 1 4294967295 4294967296 gather . --network absent.toml --from @
  > 1 4294967295 4294967296 gather . --network absent.toml --last @
  > 0 4294967295 4294967296 junk @ 0
  > 1 1000000 1000001 cut absent @
  > 1 65535 65536 scramble absent.toml @ absent 0
  > 1 4294967295 4294967296 scramble absent.toml 0 absent @
  > 1 1000000 1000001 measure absent.toml --runs @
  > 1 1000000 1000001 worst absent.toml --searches @
  > 1 10080 10081 worst absent.toml --minutes @
  > 1 1000000000 1000000001 worst absent.toml --steps @
  > 1 4294967295 4294967296 worst absent.toml --seed @
  > 1 4294967295 4294967296 measure absent.toml --seed @
  > 1 2000 2001 node --hold @ absent.toml 0 run
  > 1 100000 100001 node --repeat @ absent.toml 0 run
  > 1 65535 65536 node absent.toml @ run
  > 1 4294967295 4294967296 schedule absent.toml --rounds @
  > 1 4294967295 4294967296 schedule absent.toml --rounds 1 --scramble @
  > 1 4294967295 4294967296 schedule absent.toml --seed 1 --random @
  > 1 4294967295 4294967296 schedule absent.toml --random 1 --seed @
  > 1 100 101 schedule absent.toml --random 1 --seed 1 --loss @
  > 1 65535 65536 status absent @
  > 1 1000000 1000001 threads absent.toml @
  > END

Command lines with an invalid number: those whose numbers are read only with a file, and those with a least number, or a
second one.

  $ statuses <<'END'
  > 2 lock absent +1
  > 2 lock absent 01
  > 2 lock absent 65536
  > 2 lock --timeout +1 absent 1
  > 2 lock --timeout 01 absent 1
  > 2 lock --timeout 65536 absent 1
  > 2 lock --timeout 0.0001 absent 1
  > 2 lock -E 0 absent 1
  > 2 lock absent 1 --
  > 2 junk 1 01
  > 2 junk 1 1000001
  > 2 measure absent.toml --runs 0
  > 2 threads absent.toml 0
  > 2 draw absent.toml - --columns 0
  > END
