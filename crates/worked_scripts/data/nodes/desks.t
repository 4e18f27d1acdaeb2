Clients of node 0, against desks whose answers are written here. After its last answer a desk closes the connection.

There is no room at first, and the client asks again.

  $ desk 0 'hear; echo full; hear; echo granted; hear; echo released'
  $ tokentree lock run 0 sh -c 'exit 0'
  $ dismissed 0
  lock
  lock
  unlock

The desk closes the first connection before it lends the lock, and the client asks again. After `released` it sends
nothing more.

  $ desk 0 'hear' 'hear; echo granted; hear; echo released; see_off'
  $ tokentree lock run 0 sh -c 'exit 5'
  [5]
  $ dismissed 0
  lock
  lock
  unlock
  0

The loan ended before the release, and the command did not know.

  $ desk 0 'hear; echo granted; hear; echo stranger; see_off'
  $ tokentree lock run 0 sh -c 'exit 0'
  tokentree: the lock may have been lost: node 0 did not say that it was held to the end
  [122]
  $ dismissed 0
  lock
  unlock
  0

What answers does not know the line `lock`.

  $ desk 0 'hear; echo unknown; see_off'
  $ tokentree lock run 0 sh -c 'exit 0'
  tokentree: what answers for node 0 is no lock service
  [125]
  $ dismissed 0
  lock
  0
