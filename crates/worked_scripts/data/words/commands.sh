# What scripts of single commands know as well.

# in_rooms STATUS TEXT ROOMS COMMAND..: runs a command once for each number of ROOMS, which is how many bytes its output
# has room for. Prints each number with which the output is not as much of the file TEXT as has room, or the command
# ends otherwise. It should end with STATUS if all has room, and else with status 1 and lines that say why.
in_rooms() {
    status=$1 text=$2 rooms=$3
    shift 3
    size=$(wc -c <"$text")
    full='tokentree: standard output: File too large (os error 27)
tokentree: standard output cannot be written
status 1'
    for most in $rooms; do
        # Without the trap a signal would end a command that writes more.
        end=$(trap '' XFSZ; prlimit --fsize="$most" "$@" 2>&1 >front; echo "status $?")
        if [ "$most" -lt "$size" ]; then want=$full; else want="status $status"; fi
        [ "$end" = "$want" ] && head -c "$most" "$text" | cmp -s - front || echo "$most bytes: $end"
    done
}
