#!/bin/sh
# Shows where a check of a crate spent its time, by functions: `sh bench/proof_times.sh CRATE [LINES [SINCE]]`, at the top
# of the repository, after an `rt check --jobs 1` of that crate. SINCE is a time as `date +%s` prints it: then only what
# was proved later counts, so what an edit costs shows without a check of the whole crate.
#
# The prover writes a file for each part of each function once it is proved. So the time from one file to the next is
# about the cost of the later one, if nothing else was proved at the same time. Prints the sum, then the LINES (20)
# functions that took longest, in seconds: in all; their steps (`Lts` and `Tie`: statements, borrows, and what is dropped
# if they return early); the proof of their clauses (`Proof`); and their name.
set -eu

[ $# -ge 1 ] || { echo "usage: sh bench/proof_times.sh CRATE [LINES [SINCE]]" >&2; exit 2; }
folder=crates/$1/out/incremental
[ -d "$folder" ] || { echo "proof_times: nothing was checked in crates/$1" >&2; exit 1; }

found=$(mktemp)
trap 'rm -f "$found"' EXIT
find "$folder" -name '*.oantt' -not -path '*/records/*' -not -path '*/long/*' -printf '%T@ %f\n' |
    sort -n |
    awk -v since="${3:-0}" -v library="Rattle-$1-proofs." '
        $1 < since { next }
        last == "" { last = $1 }
        {
            name = $2
            sub(/\.oantt$/, "", name)
            time = $1 - last
            last = $1
            all += time
            if (index(name, library) != 1) next
            part = name
            sub(/.*\./, "", part)
            name = substr(name, length(library) + 1, length(name) - length(library) - length(part) - 1)
            if (name == "") next
            whole[name] += time
            if (part ~ /^(Lts|Tie)/) steps[name] += time
            if (part == "Proof") clauses[name] += time
        }
        END {
            printf "%8.1f\n", all
            for (name in whole) printf "%8.1f %8.1f %8.1f  %s\n", whole[name], steps[name], clauses[name], name
        }
    ' >"$found"
printf '%8s %8s %8s  %s\n' all steps clauses function
head -n 1 "$found"
tail -n +2 "$found" | sort -rn | head -n "${2:-20}"
