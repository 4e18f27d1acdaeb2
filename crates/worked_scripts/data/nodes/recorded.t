What the records of three nodes say: woven into events and replayed, they lead to where the nodes stood. At rest node 0
is the root, and the others are next to it.

  $ cp ring.toml net.toml; start 0 --record; start 1 --record; start 2 --record
  $ serves 0 0; serves 1 1; serves 2 1
  $ tokentree status run | resting
  node 0 distance 0 parent none
  node 1 distance 1 parent 0
  node 2 distance 1 parent 0
  $ stop 0; stop 1; stop 2
  $ tokentree gather run >events 2>said
  $ tokentree simulate net.toml events | resting
  node 0 distance 0 parent none
  node 1 distance 1 parent 0
  node 2 distance 1 parent 0

The replay differs nowhere from what was recorded, and each frame that was taken was sent. `gather` took the network
that the nodes kept.

  $ grep -c '^tokentree: differences 0' said; grep -c '^tokentree: frames lost .*, frames that nobody sent 0$' said
  1
  1
