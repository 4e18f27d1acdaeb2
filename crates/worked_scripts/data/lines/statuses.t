Command lines, and the statuses with which they end: 0 done, help too; 1 a file, memory or the output failed; 2 the
command line is invalid; 3 `simulate` is done, and refused some lines of its events.

  $ echo 'nodes =' >bad.toml; echo 'tick 0' >good.events; printf 'tick 0\ntick 2\n' >refused.events
  $ statuses <<'END'
  > 0 bound two.toml
  > 0 bound -- two.toml
  > 0 bound --sharp two.toml
  > 0 bound two.toml --sharp
  > 0 --help
  > 0 help bound
  > 0 bound --help
  > 1 bound bad.toml
  > 1 bound absent.toml
  > 2 
  > 2 bound
  > 2 bound bad.toml more
  > 2 bound --more absent.toml
  > 2 bound --sharp --sharp two.toml
  > 2 bound --sharp
  > 2 Bound two.toml
  > 0 simulate two.toml good.events
  > 0 simulate two.toml good.events --layers
  > 2 simulate two.toml good.events --layers --layers
  > 0 simulate --help
  > 0 help simulate
  > 3 simulate two.toml refused.events
  > 1 simulate two.toml absent
  > 1 simulate bad.toml refused.events
  > 2 simulate
  > 2 simulate two.toml
  > 2 simulate bad.toml absent more
  > 0 threads two.toml 3
  > 0 threads --help
  > 2 threads two.toml 0
  > 2 threads two.toml 1000001
  > 2 threads two.toml
  > 1 threads bad.toml 3
  > 2 unknown
  > 0 node --help
  > 0 help up
  > 1 node two.toml 2 run
  > 1 node absent.toml 0 run
  > 2 node absent.toml 65536 run
  > 2 node absent.toml 01 run
  > 2 node absent.toml +1 run
  > 2 node --hold 2001 absent.toml 0 run
  > 2 node --repeat 100001 absent.toml 0 run
  > 2 node --turn 0 absent.toml 0 run
  > 1 node --turn 3600000 absent.toml 0 run
  > 2 up --turn 3600000.001 absent.toml run
  > 2 node two.toml 0
  > 1 up absent.toml run
  > 2 up two.toml
  > 0 schedule two.toml --rounds 1
  > 0 schedule two.toml --rounds 0 --scramble 4294967295
  > 0 schedule two.toml --random 9 --seed 1 --loss 100 --clients
  > 2 schedule two.toml
  > 1 schedule absent.toml --rounds 1
  > 2 schedule two.toml --rounds 4294967296
  > 2 schedule two.toml --random 9
  > 2 schedule two.toml --rounds 1 --random 9 --seed 1
  > 2 schedule two.toml --rounds 1 --clients
  > 2 schedule two.toml --random 9 --seed 1 --loss 101
  > 0 network ring 3
  > 0 network grid 8 8 --root 63
  > 0 network random 5 --edges 10 --seed 7
  > 2 network ring 2
  > 2 network complete 24
  > 2 network grid 8 9
  > 2 network grid 8
  > 2 network line 3 3
  > 2 network line 3 --root 3
  > 2 network line 3 --seed 7
  > 2 network random 5 --edges 11
  > 0 measure two.toml --runs 3
  > 0 measure two.toml --runs 1 --random --table
  > 0 measure two.toml --runs 2 --csv
  > 0 measure two.toml --runs 2 --csv --plot /dev/null
  > 1 measure two.toml --runs 2 --csv --plot no/two.svg
  > 2 measure two.toml --runs 2 --plot two.svg
  > 2 measure two.toml --csv --table
  > 2 measure two.toml --json --csv
  > 2 measure two.toml --runs 2 --json --plot two.svg
  > 2 measure two.toml --runs 2 --table --plot two.svg
  > 1 measure bad.toml --runs 1
  > 2 measure two.toml --runs 0
  > 0 worst two.toml --searches 2 --steps 3
  > 0 worst two.toml --searches 1 --steps 0 --events good.events
  > 0 simulate two.toml good.events
  > 1 worst two.toml --searches 1 --steps 0 --events absent/late.txt
  > 1 worst bad.toml
  > 2 worst two.toml --searches 0
  > 2 worst two.toml --minutes 0
  > 2 worst two.toml --minutes 1 --searches 2
  > 2 measure two.toml --rounds --random
  > 0 measure two.toml --runs 1 --schedule random
  > 0 measure two.toml --runs 1 --schedule slow-link
  > 0 measure two.toml --runs 1 --schedule slow-node --share 50 --csv
  > 2 measure two.toml --schedule slow
  > 2 measure two.toml --schedule rounds --share 50
  > 2 measure two.toml --schedule slow-node --share 0
  > 2 measure two.toml --schedule slow-link --share 101
  > 2 measure two.toml --share 50
  > 2 measure two.toml --share 50 --rounds
  > 2 measure two.toml --share 50 --random
  > 2 status run --every 1
  > 2 status run --every 1 --links
  > 2 status run --every 1 --premises
  > 2 status run --every 1 --check two.toml
  > 2 measure two.toml --schedule slow-link --random
  > 0 version
  > 0 -v
  > 0 lock --version
  > 1 stop absent
  > 2 stop
  > 2 stop --timeout 65536 absent
  > 0 gather --help
  > 1 gather . --network two.toml
  > 1 gather --network two.toml absent
  > 1 gather . --network bad.toml
  > 1 gather . --network absent.toml
  > 1 gather .
  > 1 gather absent
  > 2 gather
  > 2 gather --network two.toml
  > 2 gather . more --network two.toml
  > 2 gather . --network two.toml --from 1 --last 1
  > 2 gather . --network two.toml --last
  > END

Invalid network files, one after the other at the same path. Their lines have `/` for a newline.

  $ while read -r text; do
  >     printf '%s' "$text" | tr / '\n' >refused.toml
  >     echo '1 bound refused.toml' | statuses
  > done <<'END'
  > nodes =
  > nodes = 2
  > nodes = 2.0/root = 0/capacity = 1/lease = 0/edges = [[0, 1]]
  > nodes = 1/root = 0/capacity = 1/lease = 0/edges = [[0, 1]]
  > nodes = 65/root = 0/capacity = 1/lease = 0/edges = [[0, 1]]
  > nodes = 2/root = 2/capacity = 1/lease = 0/edges = [[0, 1]]
  > nodes = 2/root = 0/capacity = 0/lease = 0/edges = [[0, 1]]
  > nodes = 2/root = 0/capacity = 1/lease = 65536/edges = [[0, 1]]
  > nodes = 2/root = 0/capacity = 1/lease = 0/edges = [[0, 2]]
  > nodes = 2/root = 0/capacity = 1/lease = 0/edges = [[1, 1]]
  > nodes = 2/root = 0/capacity = 1/lease = 0/edges = [[0, 1], [1, 0]]
  > nodes = 2/root = 0/capacity = 1/lease = 0/edges = []
  > END
