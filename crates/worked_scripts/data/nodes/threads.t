What `threads` prints is what the turns of its nodes led to.

One turn of each of two nodes has one of four ends. A node ticks, sends a frame, and takes what is there, so a frame is
left on a link if its receiver was earlier; if none is, both nodes ticked and each link handed over a frame that was
sent meanwhile, which is a sweep. Node 1 found its parent in its tick, and nothing else yet: the frames were sent before
one was taken, so they say what the nodes said at the start.

  $ tokentree threads two.toml 1 --events events >printed
  $ grep -v -e '^link' -e '^sweeps' printed
  node 0 distance 0 parent none token no lent none waiting 0
  node 1 distance 2 parent 0 token no lent none waiting 0
  privileged 0 lending 0
  $ case $(grep -e '^link' -e '^sweeps' printed | tr '\n' ' ') in
  >     'link 0 1 items 0 link 1 0 items 0 sweeps 1 of 69 ') ;;
  >     'link 0 1 items 0 link 1 0 items 1 sweeps 0 of 69 ') ;;
  >     'link 0 1 items 1 link 1 0 items 0 sweeps 0 of 69 ') ;;
  >     'link 0 1 items 1 link 1 0 items 1 sweeps 0 of 69 ') ;;
  >     *) cat printed ;;
  > esac

Each ticked once, and sent once over its one outgoing link, which was empty.

  $ grep -e tick -e send events | sort
  send 0 1
  send 1 0
  tick 0
  tick 1

One turn, and a hundred, print what `simulate` prints of their events.

  $ tokentree simulate two.toml events | cmp - printed
  $ tokentree threads two.toml 100 --events events >printed; tokentree simulate two.toml events | cmp - printed
