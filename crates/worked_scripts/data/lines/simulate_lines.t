Which lines of an events text are skipped, which are refused, and how they are numbered.

Each of these lines except one is refused, for a reason of its own. Line 5 lets ticket 7 ask, so in line 6 it asks
twice.

  $ tokentree simulate two.toml - <<'END'
  > tick 2
  > send 0 0
  > lose 0 1 0
  > harm own 0 3 none
  > ask 1 7
  > ask 1 7
  > leave 0 4
  > Tick 0
  > END
  line 1: NoNode
  line 2: NoLink
  line 3: NoItem
  line 4: OutOfRange
  line 6: Twice
  line 7: Stranger
  line 8: Unread
  node 0 distance 2 parent none token no lent none waiting 0
  node 1 distance 2 parent none token no lent none waiting 1
  link 0 1 items 0
  link 1 0 items 0
  privileged 0 lending 0
  sweeps 0 of 69
  [3]

Three nodes in a line: between its refused lines are accepted ones. Line 4 fills the link, and line 5 is accepted too,
since a full link loses what is sent. After line 7 the link is empty, so line 9 is accepted, unlike line 6.

  $ network 3 0 '[0, 1], [1, 2]' >line.toml
  $ tokentree simulate line.toml - <<'END'
  > tick 3
  > send 0 2
  > lose 0 1 0
  > send 0 1
  > send 0 1
  > harm junk 0 1
  > lose 0 1 0
  > take 0 1
  > harm junk 0 1
  > harm empty 0 1
  > harm own 0 4 none
  > ask 0 5
  > ask 0 5
  > leave 0 6
  > leave 0 5
  > END
  line 1: NoNode
  line 2: NoLink
  line 3: NoItem
  line 6: OutOfRange
  line 11: OutOfRange
  line 13: Twice
  line 14: Stranger
  node 0 distance 3 parent none token no lent none waiting 0
  node 1 distance 3 parent none token no lent none waiting 0
  node 2 distance 3 parent none token no lent none waiting 0
  link 0 1 items 0
  link 1 0 items 0
  link 1 2 items 0
  link 2 1 items 0
  privileged 0 lending 0
  sweeps 0 of 217
  [3]

The next texts change nothing: their refusal lines are shown, and the state at the end is compared with the start.

  $ cat >start <<'END'
  > node 0 distance 2 parent none token no lent none waiting 0
  > node 1 distance 2 parent none token no lent none waiting 0
  > link 0 1 items 0
  > link 1 0 items 0
  > privileged 0 lending 0
  > sweeps 0 of 69
  > END

An empty line, and a line that begins with `#`, is skipped, but counted. The last line needs no newline.

  $ printf '\n' | refusals two.toml start
  $ printf '#' | refusals two.toml start
  $ printf '\n\n\ntick 2\n' | refusals two.toml start
  line 4: NoNode
  [3]
  $ printf '# tick 2\n\n#\ntick 2\n' | refusals two.toml start
  line 4: NoNode
  [3]
  $ printf ' # no comment\n' | refusals two.toml start
  line 1: Unread
  [3]
  $ printf 'tick 2' | refusals two.toml start
  line 1: NoNode
  [3]
  $ printf 'tick 2\n' | refusals two.toml start
  line 1: NoNode
  [3]
  $ printf '\n\ntick 3\ntick 2' | refusals two.toml start
  line 3: NoNode
  line 4: NoNode
  [3]
  $ printf 'tick 3\n# the end' | refusals two.toml start
  line 1: NoNode
  [3]

A comment may be as long as it likes.

  $ comment=$(yes '# as long as it likes ' | head -n 1000 | tr -d '\n')
  $ printf '%s\ntick 2\n%s' "$comment" "$comment" | refusals two.toml start
  line 2: NoNode
  [3]

A line may have 64 bytes. No event has so many, so the longest line that is read is refused, and so is the shortest
one that is too long. A long line is refused once: what comes after its 64 bytes is not read as another line.

  $ long=$(yes 'tick 200' | head -n 8 | tr -d '\n'); echo "${#long}"
  64
  $ printf '%s\n%s \ntick 2\n' "$long" "$long" | refusals two.toml start
  line 1: Unread
  line 2: Unread
  line 3: NoNode
  [3]
  $ printf '%stick 0\n%s%stick 0' "$long" "$long" "$long" | refusals two.toml start
  line 1: Unread
  line 2: Unread
  [3]
  $ printf '#%s\n#%stick 0\ntick 2\n' "$long" "$long" | refusals two.toml start
  line 3: NoNode
  [3]

Almost an event: each of these lines is refused.

  $ for line in 'tick  0' ' tick 0' 'tick 0 ' 'tick\t0' 'tick 00' 'tick +0' 'tick -1' 'tick 65536' 'tick' 'tick 0 1' \
  >     'harm own 0 0 None' 'harm desk 0 5 0 maybe'; do
  >     printf "$line\n" | refusals two.toml start && echo "$line is accepted"
  > done
  line 1: Unread
  line 1: Unread
  line 1: Unread
  line 1: Unread
  line 1: Unread
  line 1: Unread
  line 1: Unread
  line 1: Unread
  line 1: Unread
  line 1: Unread
  line 1: Unread
  line 1: Unread
  [3]

A number is decimal, and 65535 at most: only the first of these lines is an event, of a node that there is not.

  $ for line in 'tick 65535' 'tick 65536' 'tick 99999999999999999999' 'tick 00' 'tick +1' 'tick '; do
  >     printf "$line\n" | refusals two.toml start && echo "$line is accepted"
  > done
  line 1: NoNode
  line 1: Unread
  line 1: Unread
  line 1: Unread
  line 1: Unread
  line 1: Unread
  [3]

A line with a carriage return at its end is refused as well, and a hint says why.

  $ printf 'tick 0\r\n' | refusals two.toml start
  tokentree: the events have carriage returns (CRLF): a line ends in a newline alone
  line 1: Unread
  [3]

Nor does a refused line change anything in a busy network. After these 76 lines node 0 has the token and no room for
another ticket, ticket 7 waits at node 1, and an item is on the link from node 0. Each line below comes after them.

  $ { rounds 1; seq -f 'ask 0 %g' 0 63; printf 'ask 1 7\nsend 0 1\n'; } >busy
  $ wc -l <busy
  76
  $ cat >end <<'END'
  > node 0 distance 0 parent none token yes lent none waiting 64
  > node 1 distance 2 parent 0 token no lent none waiting 1
  > link 0 1 items 1
  > link 1 0 items 0
  > privileged 1 lending 0
  > sweeps 1 of 69
  > END
  $ refusals two.toml end <busy
  $ while read -r line; do
  >     { cat busy; echo "$line"; } | refusals two.toml end && echo "$line is accepted"
  > done <<'END'
  > tick 2
  > take 1 1
  > lose 0 1 1
  > harm own 0 3 none
  > harm junk 0 1
  > harm desk 1 7 0 no
  > ask 0 64
  > ask 0 63
  > ask 1 7
  > leave 1 8
  > Leave 1 7
  > END
  line 77: NoNode
  line 77: NoLink
  line 77: NoItem
  line 77: OutOfRange
  line 77: OutOfRange
  line 77: OutOfRange
  line 77: Full
  line 77: Full
  line 77: Twice
  line 77: Stranger
  line 77: Unread
  [3]
