# What scripts of running nodes know as well. The nodes are those of the network `net.toml`, in the folder `run`; what
# node 1 prints is in `out-1` and `err-1`.

# at_last COMMAND..: repeats a command every 10 ms until it succeeds, for a minute at most.
at_last() {
    tries=6000
    until "$@"; do
        tries=$((tries - 1))
        [ "$tries" -gt 0 ] || { echo "never: $*"; return 1; }
        sleep 0.01
    done
}

# start ID [OPTION..]: starts a node, and waits until it is ready.
start() {
    id=$1
    shift
    mkdir -p run
    : >"out-$id"
    tokentree node "$@" net.toml "$id" run >"out-$id" 2>"err-$id" &
    eval "process_$id=$!"
    at_last grep -q '^ready$' "out-$id"
}

# ended ID: waits until a node has ended; shows what it said on standard error, and returns its status.
ended() {
    eval "process=\$process_$1"
    wait "$process"
    status=$?
    cat "err-$1"
    return "$status"
}

# stop ID: ends a node by its stop file, and says so if its status is not 0.
stop() {
    : >"run/stop-$1"
    ended "$1" || echo "node $1 ended with status $?"
}

# stands ID DISTANCE: whether a node says that it is this far from the root.
stands() {
    tokentree status run 2>/dev/null | grep -q "^node $1 distance $2 "
}

# lends ID: whether a node lends the lock, and does not lose it meanwhile.
lends() {
    tokentree lock run "$1" true 2>/dev/null
}

# serves ID DISTANCE: waits until a node is this far from the root, and lends the lock.
serves() {
    at_last stands "$1" "$2" && at_last lends "$1"
}

# loans: takes the lock at the root until ten loans in a row were not lost, so that the network has recovered from its
# start: a node that starts may lend beside another one, since nothing holds of a network before that. After each loan
# the root's machine moves, and before the next one the value of that move has gone once around the ring. As soon as no
# other machine has the value of a move, the token is the only one (Dijkstra 1974); there are fewer other values than
# these loans.
loans() {
    count=0 asked=0
    while [ "$count" -lt 10 ]; do
        asked=$((asked + 1))
        [ "$asked" -le 1000 ] || { echo "lost again and again"; return 1; }
        if lends 0; then count=$((count + 1)); else count=0; fi
    done
}

# resting: of the lines of nodes, what does not change once the network has come to rest.
resting() {
    grep '^node ' | cut -d ' ' -f 1-6
}
