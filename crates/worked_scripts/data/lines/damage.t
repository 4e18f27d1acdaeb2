Command lines that damage files, and their statuses.

  $ mv two.toml net.toml
  $ statuses <<'END'
  > 0 scramble net.toml 1 one.state 4294967295
  > 1 scramble net.toml 2 one.state 7
  > 1 scramble net.toml 65535 one.state 7
  > 2 scramble net.toml 65536 one.state 7
  > 2 scramble net.toml 01 one.state 7
  > 2 scramble net.toml +1 one.state 7
  > 2 scramble net.toml 1 one.state 4294967296
  > 2 scramble net.toml 1 one.state -7
  > 2 scramble absent.toml 1 one.state x
  > 1 scramble absent.toml 1 one.state 7
  > 1 scramble net.toml 1 . 7
  > 2 scramble net.toml 1 one.state
  > 0 cut one.state 33
  > 0 cut one.state 1000000
  > 2 cut one.state 1000001
  > 2 cut one.state 032
  > 2 cut absent +1
  > 1 cut absent 1
  > 2 cut one.state
  > 0 junk 0 0
  > 0 junk 7 2
  > 2 junk 7 1000001
  > 2 junk 4294967296 0
  > 2 junk +7 0
  > 2 junk 7
  > 2 junk 7 0 0
  > 0 help scramble
  > 0 cut --help
  > 0 junk --help
  > END

At the end the state file has the 33 bytes to which one of these lines cut it.

  $ wc -c <one.state
  33
