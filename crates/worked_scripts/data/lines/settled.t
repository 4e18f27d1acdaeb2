What has settled of two nodes after some harms, as the last six lines of `simulate --layers` say it.

The lines are worked out by hand from the definitions of the proof. The links hold one item, so frames count modulo 5,
and tokens modulo 7. Node 0 is the root.

  $ settled() { cat "$@" | tokentree simulate two.toml - --layers 2>why | tail -n 6; }

Nodes start with the greatest distance, 2, and with equal numbers and tokens everywhere.

  $ settled /dev/null
  links 2 of 2 stable
  distances right up to stage 0 of 2
  tree no
  ring yes
  loans yes
  legitimate no

All that is said of the root is right.

  $ cat >root <<'END'
  > harm own 0 0 none
  > harm staged 0 1 0 none 0
  > harm copy 1 0 0 none 0
  > END
  $ settled root
  links 2 of 2 stable
  distances right up to stage 1 of 2
  tree no
  ring yes
  loans yes
  legitimate no

All that is said of the other node is right, too.

  $ printf 'harm own 1 1 0\nharm staged 1 0 1 0 0\n' >other
  $ echo 'harm copy 0 1 1 0 0' >copied
  $ settled root other copied
  links 2 of 2 stable
  distances right up to stage 2 of 2
  tree yes
  ring yes
  loans yes
  legitimate yes

One copied parent is another, so the copy is not what its link carries.

  $ echo 'harm copy 0 1 1 1 0' >parent
  $ settled root other parent
  links 1 of 2 stable
  distances right up to stage 2 of 2
  tree no
  ring yes
  loans yes
  legitimate no

A frame has the number 3, and acknowledges 2. Neither is one less than 0.

  $ echo 'harm frame 0 1 3 2 2 none 0' >frame
  $ settled frame
  links 0 of 2 stable
  distances right up to stage 0 of 2
  tree no
  ring yes
  loans yes
  legitimate no

A frame of node 0 comes under the number before, as the copy did, but not with its payload.

  $ printf 'harm counters 1 0 0 4\nharm frame 0 1 4 0 2 none 3\n' >before
  $ settled before
  links 1 of 2 stable
  distances right up to stage 0 of 2
  tree no
  ring yes
  loans yes
  legitimate no

The copy has its payload, which leaves the tokens 0, 0, 3 and 0, 0, 0. That is no good ring.

  $ echo 'harm copy 1 0 2 none 3' >payload
  $ settled before payload
  links 2 of 2 stable
  distances right up to stage 0 of 2
  tree no
  ring no
  loans yes
  legitimate no

The tokens are 0, 0, 0 and 6, 6, 6: first zeros, and then values that are one less.

  $ printf 'harm value 1 0 6\nharm staged 1 0 2 none 6\nharm copy 0 1 2 none 6\n' >sixes
  $ settled sixes
  links 2 of 2 stable
  distances right up to stage 0 of 2
  tree no
  ring yes
  loans yes
  legitimate no

Node 1 lends, and knows of no neighbour on the tree.

  $ echo 'harm desk 1 7 0 no' >lends
  $ settled lends
  links 2 of 2 stable
  distances right up to stage 0 of 2
  tree no
  ring yes
  loans no
  legitimate no
