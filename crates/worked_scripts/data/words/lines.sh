# What scripts of command lines know besides the commands of a Unix system.

# show STATUS: what the last command printed, as a script has it.
show() {
    sed 's/^/  /' "$said_by_command"
    [ "$1" -eq 0 ] || echo "  [$1]"
}

# statuses: reads lines, each a status and the words of a command line of `tokentree`, and prints each line whose
# status is another.
statuses() {
    while read -r want words; do
        # The words have no blanks of their own.
        # shellcheck disable=SC2086
        tokentree $words >/dev/null 2>&1 </dev/null
        got=$?
        [ "$got" -eq "$want" ] || echo "$got, not $want: tokentree $words"
    done
}
