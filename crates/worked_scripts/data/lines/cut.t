`cut` shortens a file to its first bytes, and leaves a file alone that is not longer.

  $ printf abcdef >cut.state
  $ for length in 1000000 7 6 5 2 3 0 0; do
  >     tokentree cut cut.state $length && echo "$length bytes: '$(cat cut.state)'"
  > done
  1000000 bytes: 'abcdef'
  7 bytes: 'abcdef'
  6 bytes: 'abcdef'
  5 bytes: 'abcde'
  2 bytes: 'ab'
  3 bytes: 'ab'
  0 bytes: ''
  0 bytes: ''

It refuses whatever is no plain file, and makes no file that is not there. It waits for no reader of a pipe. The last
line says which file it is.

  $ mkfifo pipe.cut
  $ for path in . absent.cut no/absent.cut '' pipe.cut /dev/null; do
  >     tokentree cut "$path" 0 2>why; echo "status $?: '$(tail -n 1 why)'"
  > done
  status 1: 'tokentree: cannot write .'
  status 1: 'tokentree: cannot write absent.cut'
  status 1: 'tokentree: cannot write no/absent.cut'
  status 1: 'tokentree: cannot write '
  status 1: 'tokentree: cannot write pipe.cut'
  status 1: 'tokentree: cannot write /dev/null'
  $ test -e absent.cut
  [1]
