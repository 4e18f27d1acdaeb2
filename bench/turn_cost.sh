#!/bin/sh
# Counts how many instructions a turn of an idle node takes: a ring of three processes, in which node 0 runs under
# valgrind, counted for 20 seconds by callgrind. Prints the turns, the instructions, and the instructions a turn. The
# counts do not depend on what else runs on the machine; only how many turns there are does.
#
#   bench/turn_cost.sh
#
# The program is ./tokentree, or what TOKENTREE names. It takes 40 seconds. Needs valgrind.
set -eu
cd "$(dirname "$0")/.."
[ -n "${TOKENTREE:-}" ] || ./tokentree --build
program=$(realpath "${TOKENTREE:-crates/tokentree/out/tokentree}")
network=$PWD/examples/ring-of-three.toml
folder=$(mktemp -d)

end() {
    touch "$folder/nodes/stop-0" "$folder/nodes/stop-1" "$folder/nodes/stop-2" 2> /dev/null || true
    wait
    rm -rf "$folder"
}
trap end EXIT

# How many turns node 0 has taken.
turns() {
    "$program" status "$folder/nodes" 0 --premises | awk '{ print $4 }'
}

"$program" node "$network" 1 "$folder/nodes" > /dev/null 2>&1 &
"$program" node "$network" 2 "$folder/nodes" > /dev/null 2>&1 &
valgrind --tool=callgrind --callgrind-out-file="$folder/counts" \
    "$program" node "$network" 0 "$folder/nodes" > /dev/null 2>&1 &
node=$!
sleep 12
callgrind_control --zero "$node" > /dev/null 2>&1
first=$(turns)
sleep 20
last=$(turns)
callgrind_control --dump "$node" > /dev/null 2>&1
sleep 2
instructions=$(awk '/^totals:/ { sum += $2 } END { print sum }' "$folder"/counts*)
[ "$last" -gt "$first" ] && [ "${instructions:-0}" -gt 0 ] || { echo "turn_cost: nothing was counted" >&2; exit 1; }
echo "$((last - first)) turns, $instructions instructions: $((instructions / (last - first))) a turn"
