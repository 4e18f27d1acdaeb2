`scramble` writes the state file of a node, with all in it drawn from a seed.

Seed 7 gives node 1 of two the distance 2 and no parent. Its port sends under the number 0, and last heard 4. It stages
the distance 0, the parent 0 and the ring value 3, and has copied the distance 1, no parent and the ring value 1. Its
machine has the value 2. Another program computed these bytes, from the definitions of the draws and of the generator.
The file was longer before.

  $ { printf 'TKT2\0\002\0\001\0\001\0\001\0\002\377\377'
  >   printf '\0\0\0\0\0\004\0\0\0\0\0\003\0\001\377\377\0\001\0\002'; } >of-seven
  $ head -c 5000 /dev/zero | tr '\0' '\11' >one.state
  $ tokentree scramble two.toml 1 one.state 7
  $ cmp one.state of-seven

That program also computed what the greatest seed gives node 1 of three in a line: the distance 0 and the parent 2, and
then its ports to node 0 and to node 2.

  $ network 3 0 '[0, 1], [1, 2]' >line.toml; tokentree scramble line.toml 1 one.state 4294967295
  $ state_file TKT2 3 1 1 2 0 2 0 4 3 2 1 12 1 2 7 8 2 2 2 2 2 3 0 none 0 0 | cmp one.state -

A new file is for its owner alone. It is written in place: another name of the file has each state, also after a longer
one. The middle of a star of 64 nodes has the longest state.

  $ tokentree network star 64 --capacity 4096 >star.toml; rm one.state; umask 0
  $ tokentree scramble star.toml 0 one.state 7; ln one.state same.state; stat -c '%a %s' same.state
  600 1276
  $ tokentree scramble two.toml 1 one.state 7; cmp same.state of-seven
  $ tokentree scramble star.toml 0 one.state 7; cmp one.state same.state; wc -c <same.state
  1276

A write that is refused leaves what was stored, and the next one takes its place.

  $ printf TKT2 >one.state
  $ (trap '' XFSZ; prlimit --fsize=0 tokentree scramble two.toml 1 one.state 7 2>&1 | tail -n 1); cat one.state; echo
  tokentree: cannot write one.state
  TKT2
  $ tokentree scramble two.toml 1 one.state 7; cmp one.state of-seven

It looks at the network first, then at the node, and then at the file. The last line says what is wrong, and no file
changes.

  $ printf 'nodes =' >no-net.toml
  $ cp two.toml net.toml
  $ scrambled() { tokentree scramble "$1" "$2" "$3" 7 2>why; echo "status $?: '$(tail -n 1 why)'"; }
  $ scrambled absent.toml 2 .
  status 1: 'tokentree: network Unreadable'
  $ scrambled no-net.toml 2 .
  status 1: 'tokentree: network NotToml'
  $ scrambled net.toml 2 .
  status 1: 'tokentree: the network has no such node'
  $ scrambled net.toml 65535 .
  status 1: 'tokentree: the network has no such node'
  $ scrambled net.toml 1 .
  status 1: 'tokentree: cannot write .'
  $ scrambled net.toml 1 ''
  status 1: 'tokentree: cannot write '
  $ scrambled net.toml 1 net.toml/one
  status 1: 'tokentree: cannot write net.toml/one'
  $ scrambled net.toml 1 no/one
  status 1: 'tokentree: cannot write no/one'
  $ scrambled net.toml 1 a/b
  status 1: 'tokentree: cannot write a/b'
  $ cmp net.toml two.toml

It does not wait for the reader of a pipe.

  $ mkfifo pipe; scrambled net.toml 1 pipe
  status 1: 'tokentree: cannot write pipe'

Nor does it write into another thing that is no plain file. It makes the file to which a link leads.

  $ ln -s loop loop; for path in loop /dev/null /dev/full; do scrambled net.toml 1 "$path"; done
  status 1: 'tokentree: cannot write loop'
  status 1: 'tokentree: cannot write /dev/null'
  status 1: 'tokentree: cannot write /dev/full'
  $ ln -s linked dead; scrambled net.toml 1 dead; cmp linked of-seven
  status 0: ''
