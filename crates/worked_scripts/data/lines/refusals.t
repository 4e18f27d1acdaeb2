The last line that `bound` prints of an invalid network file says what is wrong with it, by a name.

No file needs more memory than there is, so `Memory` is not among the names.

  $ refused() { printf '%s' "$1" >refused.toml; refused_at refused.toml; }
  $ refused_at() { tokentree bound "$1" 2>why; echo "status $?: $(tail -n 1 why)"; }
  $ numbers() { printf 'nodes = %s\nroot = %s\ncapacity = %s\nlease = %s\nedges = %s' "$@"; }

  $ refused 'nodes ='
  status 1: tokentree: network NotToml
  $ refused 'nodes = 2'
  status 1: tokentree: network Missing
  $ refused "$(numbers 2.0 0 1 0 '[[0, 1]]')"
  status 1: tokentree: network Shape
  $ refused "$(numbers 1 0 1 0 '[[0, 1]]')"
  status 1: tokentree: network TooSmall
  $ refused "$(numbers 65 0 1 0 '[[0, 1]]')"
  status 1: tokentree: network TooBig
  $ refused "$(numbers 2 2 1 0 '[[0, 1]]')"
  status 1: tokentree: network BadRoot
  $ refused "$(numbers 2 0 0 0 '[[0, 1]]')"
  status 1: tokentree: network BadCapacity
  $ refused "$(numbers 2 0 1 65536 '[[0, 1]]')"
  status 1: tokentree: network BadLease
  $ refused "$(numbers 2 0 1 0 '[[0, 2]]')"
  status 1: tokentree: network BadEdge
  $ refused "$(numbers 2 0 1 0 '[[1, 1]]')"
  status 1: tokentree: network LoopEdge
  $ refused "$(numbers 2 0 1 0 '[[0, 1], [1, 0]]')"
  status 1: tokentree: network DoubleEdge
  $ refused "$(numbers 2 0 1 0 '[]')"
  status 1: tokentree: network Apart

A text that is no UTF-8 is no TOML.

  $ printf 'f\377' >refused.toml; refused_at refused.toml
  status 1: tokentree: network NotToml

A network file has at most 1048576 bytes. If it has more, it counts as unreadable, and so does whatever is no plain
file.

  $ blanks() { head -c "$1" /dev/zero | tr '\0' ' '; }
  $ blanks 1048576 >blanks.toml; refused_at blanks.toml
  status 1: tokentree: network Missing
  $ blanks 1048577 >long.toml; refused_at long.toml
  status 1: tokentree: network Unreadable
  $ for path in absent.toml . '' /dev/null; do refused_at "$path"; done
  status 1: tokentree: network Unreadable
  status 1: tokentree: network Unreadable
  status 1: tokentree: network Unreadable
  status 1: tokentree: network Unreadable
