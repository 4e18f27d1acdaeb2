#!/usr/bin/env bash
# Measures `tokentree simulate` on four networks: a square, a path of 64 nodes, a star of 64 with room for 4096 items on
# each link, and 23 nodes with 250 edges. For each it prints the best of five runs, in million lines a second of a
# processor, the instructions of a line, if there is a valgrind, and the most memory of a run. `bench/simulate.sh OLD`
# also measures an older build of the program, in turns with today's. TOKENTREE names today's program, if it need not be
# built. Needs python3. In a round each node ticks, and then each frame goes twice over each link; the rounds of a text
# have some 2,000,000 lines.
set -euo pipefail
older=${1:+$(realpath "$1")}
cd "$(dirname "$0")/../crates/tokentree"
if [ -n "${TOKENTREE:-}" ]; then
    today=$(realpath "$TOKENTREE")
else
    rt run -- --help > /dev/null 2>&1
    today=$PWD/out/tokentree
fi
lines=2000000
folder=$(mktemp -d)
trap 'rm -rf "$folder"' EXIT

# Prints the edges of a network, one a line.
edges() {
    case $1 in
    square) printf '%s\n' '0 1' '0 2' '1 3' '2 3' ;;
    path) for v in $(seq 1 63); do echo "$((v - 1)) $v"; done ;;
    star) for v in $(seq 1 63); do echo "0 $v"; done ;;
    dense) for v in $(seq 1 22); do for u in $(seq 0 $((v - 1))); do echo "$u $v"; done; done | head -n 250 ;;
    esac
}

# Prints the network file of $2 nodes with capacity $3, whose edges are those of $1.
network() {
    echo "nodes = $2"
    echo "root = 0"
    echo "capacity = $3"
    echo "lease = 0"
    echo "edges = [$(edges "$1" | sed 's/ /, /; s/.*/[&]/' | paste -sd, -)]"
}

# Prints the events of whole rounds, as close as possible to a number of lines.
events() {
    edges "$1" | awk -v nodes="$2" -v lines="$3" '
        { link[count++] = $1 " " $2; link[count++] = $2 " " $1 }
        END {
            for (v = 0; v < nodes; v++) round = round "tick " v "\n"
            for (i = 0; i < count; i++)
                for (times = 0; times < 2; times++) round = round "send " link[i] "\ntake " link[i] "\n"
            size = nodes + 4 * count
            for (done = 0; done + size / 2 < lines; done += size) printf "%s", round
        }'
}

# Runs a program on a text, and prints the microseconds of processor time that it took.
measure() {
    python3 -c 'import resource, subprocess, sys
subprocess.run(sys.argv[1:], check=True, stdout=subprocess.DEVNULL)
used = resource.getrusage(resource.RUSAGE_CHILDREN)
print(int(1000000 * (used.ru_utime + used.ru_stime)))' "$1" simulate "$folder/network.toml" "$folder/events"
}

# Runs a program on a text from a pipe, and prints the most memory that it had, in kilobytes.
memory() {
    python3 -c 'import subprocess, sys, time
child = subprocess.Popen(sys.argv[1:4] + ["-"], stdin=subprocess.PIPE, stdout=subprocess.DEVNULL)
child.stdin.write(open(sys.argv[4], "rb").read())
child.stdin.flush()
time.sleep(0.2)
print(next(line.split()[1] for line in open(f"/proc/{child.pid}/status") if line.startswith("VmHWM")))
child.stdin.close()
child.wait()' "$1" simulate "$folder/network.toml" "$folder/events"
}

# The instructions that a program spends on a text.
instructions() {
    valgrind --tool=callgrind --callgrind-out-file=/dev/null "$1" simulate "$folder/network.toml" "$2" 2>&1 > /dev/null |
        awk '/Collected/ { print $NF }'
}

# The instructions of a line: the extra cost of a text of twice as many rounds.
per_line() {
    command -v valgrind > /dev/null || { echo "-"; return; }
    local few more
    few=$(instructions "$1" "$folder/few")
    more=$(instructions "$1" "$folder/more")
    echo "$(((more - few) / ($(wc -l < "$folder/more") - $(wc -l < "$folder/few"))))"
}

printf '%-8s %-6s %18s %20s %10s\n' network build 'million lines/s' 'instructions/line' memory
while read -r name nodes capacity; do
    network "$name" "$nodes" "$capacity" > "$folder/network.toml"
    events "$name" "$nodes" "$lines" > "$folder/events"
    events "$name" "$nodes" 40000 > "$folder/few"
    events "$name" "$nodes" 80000 > "$folder/more"
    count=$(wc -l < "$folder/events")
    for _ in 1 2 3 4 5; do
        [ -z "$older" ] || echo "older $(measure "$older")"
        echo "today $(measure "$today")"
    done > "$folder/runs"
    for build in ${older:+older} today; do
        program=$([ "$build" = today ] && echo "$today" || echo "$older")
        awk -v name="$name" -v build="$build" -v lines="$count" -v instructions="$(per_line "$program")" \
            -v memory="$(memory "$program")" '
            $1 == build { rate = lines / $2; if (rate > best) best = rate }
            END { printf "%-8s %-6s %18.2f %20s %7d kB\n", name, build, best, instructions, memory }' "$folder/runs"
    done
done << 'NETWORKS'
square 4 1
path 64 1
star 64 4096
dense 23 1
NETWORKS
