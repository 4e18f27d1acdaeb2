#!/bin/sh
# Starts a network of three node processes and, at each node, clients that take the lock again and again by `tokentree
# lock`. Under the lock each makes a folder, which fails if another client holds the lock too, and removes it. Prints
# how often the lock was taken, and how often two clients held it at once; status 1 if they ever did.
#
#   bench/exclusion.sh [TIMES] [CLIENTS]     how often each client takes it (50), and how many there are at a node (2)
#
# The program is ./tokentree, or what TOKENTREE names.
set -eu
cd "$(dirname "$0")/.."
program=$(realpath "${TOKENTREE:-./tokentree}")
times=${1:-50}
clients=${2:-2}
folder=$(mktemp -d)
cat >"$folder/ring.toml" <<'END'
nodes = 3
root = 0
capacity = 64
lease = 0
edges = [[0, 1], [1, 2], [0, 2]]
END
mkdir -m 700 "$folder/nodes"
for node in 0 1 2; do "$program" node "$folder/ring.toml" $node "$folder/nodes" >/dev/null 2>&1 & done

stop() {
    for node in 0 1 2; do : >"$folder/nodes/stop-$node"; done
    wait
    rm -rf "$folder"
}
trap stop EXIT

# What a client does under the lock.
cat >"$folder/held" <<'END'
#!/bin/sh
if mkdir "$1/witness" 2>/dev/null; then
    echo taken >>"$1/log-$2"
    rmdir "$1/witness"
else
    echo twice >>"$1/log-$2"
fi
END
chmod +x "$folder/held"

# Wait until the tree is built: each node shows its distance, and the token shows up now and then.
tries=0
until "$program" status "$folder/nodes" 2>/dev/null | grep -q 'node 2 distance 1 parent 0'; do
    tries=$((tries + 1))
    [ $tries -lt 200 ] || { echo "exclusion: the nodes do not come up" >&2; exit 1; }
    sleep 0.05
done
# Nodes that start may lend beside one another. Between two loans of the root the token goes once around the ring; after
# ten the root's value is nobody else's, so that no other token is left.
for _ in 1 2 3 4 5 6 7 8 9 10; do "$program" lock --timeout 20 "$folder/nodes" 0 -- true; done

workers=
for node in 0 1 2; do
    client=0
    while [ $client -lt "$clients" ]; do
        (
            i=0
            while [ $i -lt "$times" ]; do
                "$program" lock "$folder/nodes" $node -- "$folder/held" "$folder" "$node-$client" ||
                    echo "status $?" >>"$folder/log-$node-$client"
                i=$((i + 1))
            done
        ) &
        workers="$workers $!"
        client=$((client + 1))
    done
done
# shellcheck disable=SC2086
wait $workers
taken=$(cat "$folder"/log-* | grep -c taken || true)
twice=$(cat "$folder"/log-* | grep -c twice || true)
others=$(cat "$folder"/log-* | grep -c status || true)
echo "taken $taken of $((3 * clients * times)), two at once $twice, other statuses $others"
[ "$twice" -eq 0 ] && [ "$taken" -eq $((3 * clients * times)) ]
