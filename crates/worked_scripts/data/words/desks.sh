# What scripts of clients know as well that play the desk which a client asks.

# What a desk's script knows besides the commands of a Unix system: `hear` reads a line, and `see_off` reads until the
# client is gone. `dismissed` shows that line, and how many bytes came until then.
desk_words='
hear() { IFS= read -r line; printf "%s\n" "$line" >&2; }
see_off() { wc -c >&2; }
'

# desk ID SCRIPT..: listens in the folder `run` where clients ask node ID. The next connection is standard input and
# standard output of the next SCRIPT, and closes when that ends.
desk() {
    desk=$1
    shift
    for script; do
        shift
        set -- "$@" "$desk_words$script"
    done
    mkdir -p run
    : >"out-desk-$desk"
    tokentree --serve "run/desk-$desk.sock" "$@" >"out-desk-$desk" 2>"heard-$desk" &
    eval "desk_$desk=$!"
    at_last grep -q ready "out-desk-$desk"
}

# dismissed ID: waits until all scripts of a desk have ended, and shows what they heard.
dismissed() {
    eval "process=\$desk_$1"
    wait "$process"
    rm "run/desk-$1.sock"
    cat "heard-$1"
}
