# What scripts of records know as well. An entry of a record is numbers in LEB128: its kind, the microseconds since the
# entry before it, and its fields. A byte follows that makes the sum of the entry's bytes 255, modulo 256.

# byte NUMBER: a byte, which counts for the sum of an entry.
byte() {
    sum=$((sum + $1))
    printf '%b' "\\0$(($1 / 64))$(($1 / 8 % 8))$(($1 % 8))"
}

# entry NUMBER..: an entry of these numbers.
entry() {
    sum=0
    for number; do
        while [ "$number" -ge 128 ]; do
            byte $((number % 128 + 128))
            number=$((number / 128))
        done
        byte "$number"
    done
    byte $((255 - sum % 256))
}

# note INSTANT WHAT [FIELD..]: the next entry of a record. A record begins with a `start`, and a whole state that comes
# again with `again`. A PARENT, and the TICKET of a loan, is 0 for none, and else the number plus 1. WHAT and its fields
# are a part of the node's state:
#   start NETWORK NODE, again NETWORK NODE, own DISTANCE PARENT, wait TICKET, loan TICKET LEFT SERVED, whole,
#   port NEIGHBOUR SEQ LAST DISTANCE PARENT RING DISTANCE PARENT RING VALUE (what is sent, and what was copied),
# or what the node did, or what came to it:
#   tick, take FROM SEQ ACK DISTANCE PARENT RING, send TO SEQ ACK DISTANCE PARENT RING, ask TICKET, leave TICKET,
#   join NEIGHBOUR, part NEIGHBOUR.
note() {
    instant=$1
    case $2 in
        start) kind=1 last=0 ;;
        again) kind=1 ;;
        own) kind=2 ;;
        port) kind=3 ;;
        wait) kind=4 ;;
        loan) kind=5 ;;
        whole) kind=6 ;;
        tick) kind=7 ;;
        take) kind=8 ;;
        send) kind=10 ;;
        ask) kind=12 ;;
        leave) kind=13 ;;
        join) kind=14 ;;
        part) kind=15 ;;
    esac
    shift 2
    entry "$kind" $((instant - last)) "$@"
    last=$instant
}

# sender: the record of node 0 of `two.toml`. It ticks, and sends its first frame. A network's number is its count of
# nodes, its root, its capacity and its lease, here 2, 0, 1 and 0, as digits to the base 65599, modulo 2^32.
sender() {
    note 1000 start 1561239997 0
    note 1000 tick
    note 1100 send 1 0 0 2 0 0
}

# taker [INSTANT [SEQ]]: the record of node 1, whose clock is slow. At 905, or this instant, it takes the frame of node
# 0, or that frame with this number; it ticks 5 and 55 microseconds later.
taker() {
    note 900 start 1561239997 1
    note "${1:-905}" take 0 "${2:-0}" 0 2 0 0
    note $((${1:-905} + 5)) tick
    note $((${1:-905} + 55)) tick
}

# harmed BEGIN PARENT LENT FREE: the record of node 1 that begins with the distance 1. At the instant PARENT it has
# another parent, and from LENT to FREE it lends to ticket 7.
harmed() {
    note "$1" start 1561239997 1
    note "$1" own 1 0
    note "$1" whole
    note "$2" own 1 1
    note "$3" loan 8 0 0
    note "$4" loan 0 0 0
}
