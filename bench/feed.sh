#!/usr/bin/env bash
# Measures LineReader::feed on 64 MiB of each text, in pieces of 64 KiB or of $1 bytes: the best of five runs, in
# megabytes a second on one core.
set -euo pipefail
piece=${1:-65536}
cd "$(dirname "$0")/../crates/bench_feed"
rt run -- good 1 1 > /dev/null 2>&1
for text in good noise flat empty short; do
    for _ in 1 2 3 4 5; do
        out/bench_feed "$text" 3050402 "$piece" 2>&1 > /dev/null
    done | awk -v text="$text" '{ rate = $1 / $4; if (rate > best) best = rate } END { printf "%-6s %6d MB/s\n", text, best }'
done
