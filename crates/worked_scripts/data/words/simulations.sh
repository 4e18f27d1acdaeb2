# What scripts of simulations know as well. All but `refusals` print a text.

# network NODES LEASE EDGES: a network file with node 0 as the root, whose links hold one item.
network() {
    printf 'nodes = %s\nroot = 0\ncapacity = 1\nlease = %s\nedges = [%s]\n' "$1" "$2" "$3"
}

# round NODES LINK..: the events of one round of such a network. Each node ticks. Then two items go over each link, in
# the order given, one more than it holds. `0 1` is the link from node 0 to node 1.
round() {
    node=0
    while [ "$node" -lt "$1" ]; do
        echo "tick $node"
        node=$((node + 1))
    done
    shift
    for link; do
        printf 'send %s\ntake %s\n' "$link" "$link" "$link" "$link"
    done
}

# repeat N: the text of standard input N times.
repeat() {
    whole=$(cat)
    left=$1
    while [ "$left" -gt 0 ]; do
        printf '%s\n' "$whole"
        left=$((left - 1))
    done
}

# rounds N: the events of N rounds of two nodes.
rounds() {
    round 2 '0 1' '1 0' | repeat "$1"
}

# forged: harms that give each of two nodes a forged token, which it lends.
forged() {
    cat <<'END'
harm own 0 0 none
harm own 1 1 0
harm staged 0 1 0 none 0
harm copy 0 1 1 0 0
harm staged 1 0 1 0 0
harm copy 1 0 0 none 1
harm desk 0 5 0 no
harm desk 1 6 0 no
END
}

# refusals NETWORK STATE: simulates the events of standard input. Prints only the refusal lines if the state of the file
# STATE follows them, and else all that the simulation printed. Its status is that of the simulation.
refusals() {
    tokentree simulate "$1" - >simulated
    status=$?
    grep '^line ' simulated >refused
    if cat refused "$2" | cmp -s - simulated; then cat refused; else cat simulated; fi
    return "$status"
}
