#!/bin/sh
# Prints for each crate its depth, how many crates are below it, and how many ways lead down from it: `sh
# bench/ways_down.sh [CRATE]`; the last line is for CRATE, by default `tokentree`.
#
# The ways count what rt reads before a check. To see whether a crate is built, rt makes a sum over all files below it,
# once for each way down, not once for each crate. A word of crates.txt adds all ways down from the crate that it names,
# once for each way that leads to its line.
set -eu
cd "$(dirname "$0")/.."

awk -v last="${1:-tokentree}" '
    # Reads all crates below one, and counts the ways and the levels.
    function count(name, words, used, i, j) {
        if (name in ways) return
        ways[name] = 0
        words = split(uses[name], used, " ")
        for (i = 1; i <= words; i++) {
            if (!(used[i] in uses)) continue
            count(used[i])
            ways[name] += 1 + ways[used[i]]
            if (depth[used[i]] > depth[name]) depth[name] = depth[used[i]]
            stands[name, used[i]] = 1
            for (j = 1; j <= crates; j++) if ((used[i], names[j]) in stands) stands[name, names[j]] = 1
        }
        depth[name]++
    }
    function show(name, below, j) {
        below = 0
        for (j = 1; j <= crates; j++) if ((name, names[j]) in stands) below++
        printf "%-20s %5d %5d %6d\n", name, depth[name], below, ways[name]
    }
    /^#/ || !/:/ { next }
    { at = index($0, ":"); split($0, head, "[ :]"); names[++crates] = head[1]; uses[head[1]] = substr($0, at + 1) }
    END {
        if (!(last in uses)) { print "ways_down: there is no crate " last; exit 1 }
        printf "%-20s %5s %5s %6s\n", "crate", "depth", "below", "ways"
        for (i = 1; i <= crates; i++) count(names[i])
        for (i = 1; i <= crates; i++) if (names[i] != last) show(names[i])
        show(last)
    }
' crates.txt
