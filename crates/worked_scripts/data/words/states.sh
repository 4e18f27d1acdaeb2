# What scripts of state files know as well.

# state_file WORD NUMBER..: a state file: its first word, and numbers of two bytes, the higher byte first. `none` stands
# for 65535. The numbers are the nodes, the node, the capacity (only after TKT2), how many neighbours, the distance and
# the parent; then for each neighbour its id, the port's number, the last number that it heard, the distance, the parent
# and the ring value that it stages, those that it has copied, and the value of its machine.
state_file() {
    printf '%s' "$1"
    shift
    for number; do
        [ "$number" != none ] || number=65535
        byte $((number / 256))
        byte $((number % 256))
    done
}

# begins NETWORK ID: what node ID says of its state file in the folder `run` when it starts. Then it is killed.
begins() {
    [ -p begun ] || mkfifo begun
    tokentree node "$1" "$2" run >begun 2>said-begun &
    process=$!
    IFS= read -r line <begun
    kill -KILL "$process"
    wait "$process" 2>wait-killed
    printf '%s\n' "$line"
}

# begins_from NETWORK ID: the same, with standard input as that file.
begins_from() {
    mkdir -p run
    cat >"run/state-$2.tkt"
    begins "$@"
}

# pass NETWORK ID DIR: starts node ID from the state file in the folder DIR. It records what it loads, and ends as soon
# as it looks for its stop file. The nodes that pass run side by side until `wait`.
pass() {
    : >"$3/stop-$2"
    tokentree node --record "$1" "$2" "$3" >"$3/out" 2>"$3/err" &
}

# pass_from NETWORK ID DIR: the same, with standard input as that file, in a new folder.
pass_from() {
    mkdir "$3"
    cat >"$3/state-$2.tkt"
    pass "$@"
}

# passed ID DIR: what such a node said of its state file, and its state as it recorded it: its distance and parent, and
# the numbers of each port. There 0 is no parent, and P + 1 the parent P.
passed() {
    head -n 1 "$2/out"
    entries "$2/record-$1.0" | sed -n '/^whole$/q; /^own /p; /^port /p'
}

# recorded FILE: the numbers of a state file as a record of that state has them.
recorded() {
    tail -c +13 "$1" | od -An -v -tu1 -w2 | awk '
        function parent(number) { return number == 65535 ? 0 : number + 1 }
        { number[NR - 1] = $1 * 256 + $2 }
        END {
            print "own", number[0], parent(number[1])
            for (at = 2; at < NR; at += 10) {
                number[at + 4] = parent(number[at + 4])
                number[at + 7] = parent(number[at + 7])
                line = "port"
                for (place = at; place < at + 10; place++) line = line " " number[place]
                print line
            }
        }
    '
}
