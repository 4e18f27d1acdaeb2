`status` says which nodes gave no answer. Node 0 answers in two pieces, node 2 is silent, and at the socket of node 10
something answers for node 1. A file that is no desk's socket names no node. All desks wait until the client is gone.

  $ desk 0 'hear; printf "node 0 distance 0 "; printf "parent none token yes lent 5 waiting 64\nmore"; see_off'
  $ desk 2 'hear; see_off'
  $ desk 10 'hear; echo node 1 distance 1 parent 0 token no lent none waiting 0; see_off'
  $ : >run/node-1.sock
  $ tokentree status run
  node 0 distance 0 parent none token yes lent 5 waiting 64
  node 2 no answer
  node 10 no answer
  privileged 1 lending 1
  [1]
  $ for id in 0 2 10; do dismissed "$id"; done
  status
  0
  status
  0
  status
  0
