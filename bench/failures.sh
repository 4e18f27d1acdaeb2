#!/usr/bin/env bash
# Makes everything that can fail fail once, in the built program. Each kind of system call of a command
# (bench/failing-calls.c names the kinds; growths of memory are one) fails at its first use, in another run at its
# second, and so on until a run meets no failure. Each run must end with a status of its command, and with one line on
# standard error if that status is 1, or as it would have without the failure. In front of that line stands one that says
# what the system says, if standard output fails, and may stand one, if the failure lasts; of `lock`, each of its two
# processes may say a line. Nothing else may suffer: a network goes on serving, and a node starts from whatever file is
# left. Then the machine itself refuses: no descriptors, no room on the disk, a folder without the right to write.
#
#   bench/failures.sh [MOST]     the most runs for each kind of call of one command (400)
#
# Prints a line for each command and kind: how many runs met a failure, and how many of them ended with which status. A
# line that begins with `WRONG` says what is wrong; then the status is 1. It needs `cc`; the small disk and running as
# nobody need root, and are left out without it. The program is ./tokentree, or what TOKENTREE names.
set -uo pipefail
cd "$(dirname "$0")/.." || exit 1
most=${1:-400}
folder=$(mktemp -d)
chmod 755 "$folder"
program=$folder/tokentree
cp "$(realpath "${TOKENTREE:-crates/tokentree/out/tokentree}")" "$program" || exit 1
shim=$folder/failing-calls.so
cc -shared -fPIC -O1 -o "$shim" bench/failing-calls.c || exit 1
printf 'nodes = 2\nroot = 0\ncapacity = 64\nlease = 0\nedges = [[0, 1]]\n' >"$folder/two.toml"
printf 'tick 0\ntick 2\nsend 0 1\ntake 0 1\nnothing\n' >"$folder/events"
printf '#!/bin/sh\nexit 7\n' >"$folder/seven"
chmod 755 "$folder/seven" "$program"
kinds="memory open read write status length remove folder lock socket bind connect accept poll clock pipe process wait thread"
wrongs=0
keeper=

stop() {
    [ -z "$keeper" ] || { exec 9>&- && wait "$keeper"; }
    ! mountpoint -q "$folder/disk" || umount "$folder/disk"
    rm -rf "$folder"
}
trap stop EXIT

wrong() {
    echo "WRONG $*"
    wrongs=$((wrongs + 1))
}

# The number of an error, by the kind of the call that fails.
error_of() {
    case $1 in
        memory) echo 12 ;;                            # no memory
        write) echo 28 ;;                             # no room on the device
        open | socket | accept | poll | pipe) echo 24 ;; # too many open files
        process | thread) echo 11 ;;                  # try again
        connect) echo 111 ;;                          # refused
        remove | folder | bind | length | status) echo 13 ;; # no right
        *) echo 5 ;;                                  # input and output
    esac
}

# Runs the program with call number $2 of kind $1 failing; its output goes to files, its status to `status`.
run_failing() {
    local kind=$1 at=$2
    shift 2
    rm -f "$folder/mark"
    timeout -k 1 20 env LD_PRELOAD="$shim" FAIL_PROGRAM=tokentree FAIL_CALLS="$kind" FAIL_AT="$at" FAIL_ERROR="$(error_of "$kind")" \
        FAIL_MARK="$folder/mark" "$program" "$@" >"$folder/out" 2>"$folder/err"
    status=$?
}

# Whether standard error has one line of the program's own, as after a failure.
says_one_line() {
    [ "$(wc -l <"$folder/err")" -eq 1 ] && grep -q '^tokentree: ' "$folder/err"
}

# Whether it has one or two such lines.
says_two_lines() {
    [ "$(wc -l <"$folder/err")" -eq 2 ] && ! grep -qv '^tokentree: ' "$folder/err" || says_one_line
}

# Whether it says that standard output failed, and in front of that what the system said.
says_full() {
    printf 'tokentree: %s\n' 'standard output: No space left on device (os error 28)' \
        'standard output cannot be written' | cmp -s - "$folder/err"
}

# Compares a run with a failure with the usual one: NAME STATUSES USUAL KIND; STATUSES are those that a failure may end
# with, besides the usual one. If `loose` is set, the output differs from run to run.
judge() {
    local name=$1 statuses=$2 usual=$3 kind=$4
    if [ "$status" -eq "$usual" ]; then
        [ -n "$loose" ] || cmp -s "$folder/out" "$folder/usual" || wrong "$name: status $status and another output"
    elif [[ " $statuses " != *" $status "* ]]; then
        wrong "$name: status $status: $(head -c 200 "$folder/err")"
    else
        # If that line itself cannot be written, there is none; for a node that gave no answer, it is on standard
        # output.
        says_one_line || { [[ $name == lock,* ]] && says_two_lines; } ||
            { [ "$kind" = write ] && { says_full || [ ! -s "$folder/err" ]; }; } || grep -q ' no answer$' "$folder/out" ||
            wrong "$name: status $status says $(head -c 200 "$folder/err")"
        [ -n "$loose" ] || cmp -s -n "$(wc -c <"$folder/out")" "$folder/out" "$folder/usual" ||
            wrong "$name: no beginning of the usual output"
    fi
}

# Makes each call of each kind fail once: NAME STATUSES CHECK WORDS.. CHECK is called with `before` and `after` around
# each run.
try() {
    local name=$1 statuses=$2 check=$3 kind at usual
    shift 3
    "$check" before
    run_failing none 0 "$@"
    usual=$status
    cp "$folder/out" "$folder/usual"
    "$check" after
    for kind in $kinds; do
        local -A ends=()
        for ((at = 0; at < most; at++)); do
            "$check" before
            run_failing "$kind" "$at" "$@"
            "$check" after
            [ -e "$folder/mark" ] || break
            ends[$status]=$((${ends[$status]:-0} + 1))
            judge "$name, $kind $at" "$statuses" "$usual" "$kind"
        done
        [ "$at" -gt 0 ] || continue
        printf '%-9s %-8s %4d failures:' "$name" "$kind" "$at"
        for status in "${!ends[@]}"; do printf ' status %s: %d' "$status" "${ends[$status]}"; done
        [ "$at" -lt "$most" ] && printf '\n' || printf ' (and there are more calls)\n'
    done
}

nothing() { :; }

# There is a file where the command will write or cut one.
file_stands() {
    [ "$1" = after ] || head -c 50 /dev/zero >"$folder/one.state"
}

# Whether the network of two nodes serves: the lock is lent within 5 seconds.
still_serves() {
    [ "$1" = before ] || "$program" lock --timeout 5 "$folder/nodes" 1 -- true 2>"$folder/lock-err" ||
        wrong "the lock is not to be had: $(cat "$folder/lock-err")"
}

# Asks a node to stop, which it does at its 256th turn; afterwards another one starts there.
node_starts() {
    mkdir -p "$folder/alone"
    : >"$folder/alone/stop-0"
    [ "$1" = after ] || return
    timeout -k 1 20 "$program" node "$folder/two.toml" 0 "$folder/alone" >"$folder/again" 2>&1 && grep -qx ready "$folder/again" ||
        wrong "a node does not start: $(cat "$folder/again")"
    : >"$folder/alone/stop-0"
}

loose=
try bound "1" nothing bound --sharp "$folder/two.toml"
try simulate "1" nothing simulate "$folder/two.toml" "$folder/events"
try schedule "1" nothing schedule "$folder/two.toml" --scramble 7 --rounds 3
try draw "1" nothing draw "$folder/two.toml" "$folder/events"
try measure "1" nothing measure "$folder/two.toml" --runs 4 --table
try scramble "1" file_stands scramble "$folder/two.toml" 1 "$folder/one.state" 7
try cut "1" file_stands cut "$folder/one.state" 33
try junk "1" nothing junk 7 20
loose=yes
try threads "1" nothing threads "$folder/two.toml" 20 --events "$folder/wrote"
most=$((most < 60 ? most : 60))
try node "1" node_starts node "$folder/two.toml" 0 "$folder/alone"
try recorded "1" node_starts node --record "$folder/two.toml" 0 "$folder/alone"
most=$((most < 30 ? most : 30))

mkfifo "$folder/input"
"$program" up "$folder/two.toml" "$folder/nodes" <"$folder/input" >/dev/null 2>&1 &
keeper=$!
exec 9>"$folder/input"
for _ in $(seq 200); do
    "$program" status "$folder/nodes" 2>/dev/null | grep -q 'node 1 distance 1 parent 0' && break
    sleep 0.05
done
still_serves after
try status "1" still_serves status "$folder/nodes"
try lock "122 125 126 127" still_serves lock --timeout 5 "$folder/nodes" 0 -- "$folder/seven"

# Judges a run in which the machine refuses something, and says how it ended: NAME STATUSES [USUAL]; the run left its
# `status` and `err`. It must end as usual, or with one of the statuses and a line.
refused() {
    [ "$status" = "${3:-}" ] || { [[ " $2 " == *" $status "* ]] && says_two_lines; } ||
        wrong "$1: status $status: $(head -c 200 "$folder/err")"
    echo "$1: status $status $(tr '\n' ' ' <"$folder/err")"
}

# Fewer and fewer descriptors; the program's loader itself needs one for the C library. A line: the usual status, and
# the words.
for limit in 12 10 8 7 6 5 4; do
    while read -r usual words; do
        : >"$folder/alone/stop-0"
        # shellcheck disable=SC2086
        (cd "$folder" && exec 9>&- && ulimit -n "$limit" && exec timeout -k 1 20 "$program" $words) \
            >"$folder/out" 2>"$folder/err" </dev/null
        status=$?
        refused "$limit descriptors, ${words%% *}" "1 122 125 126" "$usual"
    done <<'END'
0 bound two.toml
3 simulate two.toml events
0 status nodes
0 lock --timeout 5 nodes 0 -- true
0 node two.toml 0 alone
END
done
still_serves after

# No room: no file of any bytes can be written (the signal for that is ignored).
file_stands before
(trap '' XFSZ && ulimit -f 0 && exec "$program" scramble "$folder/two.toml" 1 "$folder/one.state" 7) >"$folder/out" 2>/dev/null
status=$?
[ "$status" -eq 1 ] && [ "$(wc -c <"$folder/one.state")" -eq 50 ] || wrong "no room: status $status"
echo "no room for a file, scramble: status $status"

mkdir "$folder/disk"
if mount -t tmpfs -o size=64k none "$folder/disk" 2>/dev/null; then
    mkdir "$folder/disk/nodes"
    : >"$folder/disk/one.state"
    head -c 1000000 /dev/zero >"$folder/disk/full" 2>/dev/null
    "$program" scramble "$folder/two.toml" 1 "$folder/disk/one.state" 7 >"$folder/out" 2>"$folder/err"
    status=$?
    refused "a full disk, scramble" 1
    "$program" node "$folder/two.toml" 0 "$folder/disk/nodes" >"$folder/out" 2>"$folder/err" 9>&- &
    node=$!
    sleep 2
    kill -0 "$node" 2>/dev/null || wrong "a full disk ends a node: $(cat "$folder/err")"
    [ ! -s "$folder/disk/nodes/state-0.tkt" ] || wrong "the disk is not full"
    rm "$folder/disk/full"
    sleep 2
    [ "$(wc -c <"$folder/disk/nodes/state-0.tkt")" -eq 36 ] || wrong "a node does not save once there is room"
    : >"$folder/disk/nodes/stop-0"
    wait "$node"
    status=$?
    : >"$folder/err"
    refused "a full disk, node, which then has room" "" 0
    head -c 1000000 /dev/zero >"$folder/disk/full" 2>/dev/null
    "$program" node --record "$folder/two.toml" 0 "$folder/disk/nodes" >"$folder/out" 2>"$folder/err" 9>&- &
    node=$!
    for _ in $(seq 100); do
        ! grep -q ': the record ends, ' "$folder/err" || break
        sleep 0.1
    done
    # Of each file that it cannot write it says so once.
    [ "$(wc -l <"$folder/err")" -eq 2 ] &&
        head -n 1 "$folder/err" | grep -q '^tokentree: .*/record\.toml: the network is not kept, .*: No space left on device' &&
        tail -n 1 "$folder/err" | grep -q '^tokentree: .*/record-0\.[01]: the record ends, and the node runs on: ' ||
        wrong "a full disk, record: $(head -c 200 "$folder/err")"
    kill -0 "$node" 2>/dev/null || wrong "a full disk ends a node that keeps a record"
    rm "$folder/disk/full"
    : >"$folder/disk/nodes/stop-0"
    wait "$node"
    status=$?
    refused "a full disk, record" "" 0
else
    echo "no small disk can be mounted here: a full disk was not tried"
fi

# A folder into which nobody may write.
mkdir -m 555 "$folder/locked"
if [ "$(id -u)" -eq 0 ] && command -v setpriv >/dev/null; then
    while read -r words; do
        # shellcheck disable=SC2086
        (cd "$folder" && exec 9>&- && exec setpriv --reuid=65534 --regid=65534 --clear-groups timeout -k 1 20 "$program" $words) \
            >"$folder/out" 2>"$folder/err" < <(sleep 1)
        status=$?
        refused "a folder of somebody else, $words" "1 125"
    done <<'END'
node two.toml 0 locked
node two.toml 0 locked/new
up two.toml locked
scramble two.toml 1 locked/one.state 7
cut two.toml 3
status nodes
lock nodes 0 -- true
threads two.toml 3 --events locked/wrote
END
    [ -z "$(ls -A "$folder/locked")" ] || wrong "something was made in a folder of somebody else"
else
    echo "running as nobody needs root: a folder without the right to write was not tried"
fi
still_serves after
echo "wrong: $wrongs"
[ "$wrongs" -eq 0 ]
