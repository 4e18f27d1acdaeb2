Help names the program `tokentree`, whatever its file is called.

  $ ln -s "$(command -v tokentree)" other

  $ ./other lock --help | grep Usage
  Usage: tokentree lock [OPTIONS] <DIR> <ID> [COMMAND]...

  $ ./other help node | grep Usage
  Usage: tokentree node [OPTIONS] <FILE> <ID> <DIR>

  $ ./other help simulate | grep Usage
  Usage: tokentree simulate [OPTIONS] <FILE> <EVENTS>
