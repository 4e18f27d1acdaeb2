#!/bin/sh
# Tries the must-fail edits that the gate leaves out: `sh bench/edits.sh [CRATE..]`, at the top of the repository.
#
# A crate's edits cost one more proof of the whole crate, and then a part of one for each. So those of a node's turn, its
# pace, lines, records, commands, pictures and experiments stand in crates/CRATE/edits instead of crates/CRATE/must-fail.
# Run this after a change of such a crate.
# It works on a copy of the files as they stand, and takes what `rt ci` proved of them from what that kept. Its status is 0
# if the prover refused each edit, and 1 if not, or if something is not proved.
set -eu
cd "$(dirname "$0")/.."

[ $# -gt 0 ] || set -- $(ls -d crates/*/edits | sed 's,^crates/,,; s,/edits$,,')
for name; do
    [ -d "crates/$name/edits" ] || { echo "edits: there is no folder crates/$name/edits" >&2; exit 2; }
done

copy=$(mktemp -d)
trap 'rm -rf "$copy"' EXIT
trap 'exit 130' INT TERM
tar -cf - --exclude=out --exclude=must-fail crates crates.txt HANDLES | tar -xf - -C "$copy"
for name; do
    mkdir -p "$copy/crates/$name/must-fail"
    mv "$copy/crates/$name/edits"/*.edit "$copy/crates/$name/must-fail/"
done
cd "$copy"
# An rt whose ci takes no names tries edits alone, and first proves all below their crates.
if rt help 2>&1 | grep -q '^ *rt ci \['; then tries=ci; else tries=must-fail; fi
{ rt "$tries" "$@" && echo 0 > status || echo $? > status; } 2>&1 | tee log |
    grep --line-buffered -E '^rt: .*(NOT PROVED|must-fail|trying)' || true
status=$(cat status)
[ "$status" = 0 ] || cat log
tail -n 1 log
exit "$status"
