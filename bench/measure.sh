#!/usr/bin/env bash
# Measures after how many sweeps scrambled networks serve: a table of lines, rings, stars and random networks of 8, 16
# and 32 nodes, and of the square, with links of 1 and of 16 items, by rounds (or by $2, say --random), with $1 runs
# each (100 by default). Both bounds are next to the measured numbers.
set -euo pipefail
runs=${1:-100}
order=${2:---rounds}
cd "$(dirname "$0")/../crates/tokentree"
rt run -- --help > /dev/null 2>&1
folder=$(mktemp -d)
trap 'rm -rf "$folder"' EXIT

# A network file: the shape, the nodes, the capacity. A random network is a tree in which each node has an earlier one
# as its neighbour, with half as many more edges as there are nodes. The numbers come from a linear congruential
# generator, so they are the same on any machine.
network() {
    awk -v shape="$1" -v n="$2" -v capacity="$3" '
        function below(k) { seed = (seed * 1103515245 + 12345) % 2147483648; return int(seed / 65536) % k }
        function edge(a, b) {
            if ((a, b) in is || (b, a) in is || a == b) return 0
            is[a, b]
            list = list (list ? ", " : "") "[" a ", " b "]"
            return 1
        }
        BEGIN {
            seed = n
            for (v = 1; v < n; v++) edge(shape == "star" ? 0 : shape == "random" ? below(v) : v - 1, v)
            if (shape == "ring") edge(0, n - 1)
            if (shape == "random") for (more = 0; more < n / 2;) more += edge(below(n), below(n))
            print "nodes = " n "\nroot = 0\ncapacity = " capacity "\nlease = 0\nedges = [" list "]"
        }'
}

echo "| Network | Nodes | Capacity | Least | Median | Most | Sharper bound | R |"
echo "|---|---|---|---|---|---|---|---|"
for size in "ring 4" "line 8" "ring 8" "star 8" "random 8" "line 16" "ring 16" "star 16" "random 16" \
    "line 32" "ring 32" "star 32" "random 32"; do
    for capacity in 1 16; do
        read -r shape nodes <<< "$size"
        network "$shape" "$nodes" "$capacity" > "$folder/network.toml"
        out/tokentree measure "$folder/network.toml" --runs "$runs" "$order" |
            awk -v shape="$shape" -v nodes="$nodes" -v capacity="$capacity" '
            $1 == "sweeps" { least = $3; median = $5; most = $7 }
            $1 == "sharp" { sharp = $2 }
            $1 == "sweeps-bound" { bound = $2 }
            END {
                shown = nodes == 4 ? "square" : shape
                printf "| %s | %d | %d | %s | %s | %s | %d | %d |\n", shown, nodes, capacity, least, median, most, sharp, bound
            }'
    done
done
