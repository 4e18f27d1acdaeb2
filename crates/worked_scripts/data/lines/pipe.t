A pipe is no network file. A command that waited for the pipe would wait for ever: this one fails, and makes no folder.

  $ mkfifo pipe
  $ tokentree node pipe 0 run >output 2>&1
  [1]
  $ ls -d run 2>/dev/null
  [2]
