# What scripts of `up`, and of clients and nodes that are killed, know as well.

# says PATTERN FILE [COUNT]: whether a file has so many whole lines of a pattern (1 if left out), or more.
says() {
    [ -e "$2" ] && [ "$(grep -cx "$1" "$2")" -ge "${3:-1}" ]
}

# start_up: starts `up` with signals held back, and waits until its three nodes are ready. It prints to `out-up` and
# `err-up`. A shell ignores SIGINT for what runs in its background, so `env` sets that right.
start_up() {
    : >out-up
    env --default-signal=INT --block-signal=HUP,INT,TERM tokentree up net.toml run >out-up 2>err-up & up=$!
    at_last says 'node . ready' out-up 3
}

# process_of ID: the process of a node that `up` keeps running.
process_of() {
    for process in $(cat "/proc/$up/task/$up/children"); do
        if tr '\0' ' ' <"/proc/$process/cmdline" | grep -q " net.toml $1 run $"; then echo "$process"; fi
    done
}

# silent ID: whether nobody listens for clients of a node.
silent() {
    tokentree lock run "$1" true 2>&1 | grep -qx "tokentree: nobody listens at run/desk-$1.sock: .*"
}

# hold ID: starts a client that holds the lock of a node until `let_go`. It prints to `out-holder` and `err-holder`.
hold() {
    rm -f input
    : >out-holder
    mkfifo input
    tokentree lock run "$1" <input >out-holder 2>err-holder & holder=$!
    exec 3>input
    at_last says granted out-holder
}

# let_go: ends the input of that client, and shows what it said on standard error. The status is that of the client.
let_go() {
    exec 3>&-
    wait "$holder"
    status=$?
    cat err-holder
    return "$status"
}

# left ID: shows what a node that has ended should have removed.
left() {
    for file in "run/stop-$1" "run/node-$1.sock" "run/desk-$1.sock" "run/look-$1.sock"; do
        [ ! -e "$file" ] || echo "$file"
    done
}

# kill_node ID: kills a node that `start` started.
kill_node() {
    eval "process=\$process_$1"
    kill -KILL "$process"
    wait "$process" 2>wait-killed || true
}
