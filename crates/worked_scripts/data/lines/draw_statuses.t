Command lines of `draw`, and their statuses.

  $ mv two.toml drawn.toml; printf 'tick 0\ntick 1\n' >drawn.events
  $ printf 'tick 0\ntick 2\n' >drawn-refused.events; printf 'tick 0\ntick\n' >drawn-unread.events
  $ statuses <<'END'
  > 0 draw drawn.toml drawn.events
  > 0 draw drawn.toml drawn.events --columns 1
  > 0 draw drawn.toml drawn.events --columns 1200
  > 0 draw --from 0 --to 9 drawn.toml drawn.events
  > 0 draw drawn.toml drawn.events --from 9
  > 0 draw drawn.toml drawn.events --layers
  > 0 draw drawn.toml drawn.events --film
  > 0 draw drawn.toml drawn.events --film --page --seconds 2
  > 0 draw --help
  > 1 draw absent.toml drawn.events
  > 1 draw drawn.events drawn.events
  > 1 draw drawn.toml absent
  > 2 draw drawn.toml
  > 2 draw drawn.toml drawn.events more
  > 2 draw drawn.toml drawn.events --columns 0
  > 2 draw drawn.toml drawn.events --columns 1201
  > 2 draw drawn.toml drawn.events --from -1
  > 2 draw drawn.toml drawn.events --from 2 --to 1
  > 2 draw drawn.toml drawn.events --to 18446744073709551616
  > 2 draw drawn.toml drawn.events --film --layers
  > 2 draw drawn.toml drawn.events --film --columns 9
  > 2 draw drawn.toml drawn.events --page
  > 2 draw drawn.toml drawn.events --seconds 5
  > 2 draw drawn.toml drawn.events --page --layers
  > 2 draw drawn.toml drawn.events --page --columns 9
  > 2 draw drawn.toml drawn.events --seconds 5 --layers
  > 2 draw drawn.toml drawn.events --seconds 5 --columns 9
  > 2 draw drawn.toml drawn.events --film --seconds 1
  > 3 draw drawn.toml drawn-refused.events
  > 3 draw drawn.toml drawn-unread.events --columns 1
  > END
