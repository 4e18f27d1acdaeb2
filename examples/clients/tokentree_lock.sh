#!/bin/sh
# The lock of a tokentree node, for a POSIX shell with socat and timeout.
#
#     . ./tokentree_lock.sh
#     if lock_acquire /tmp/nodes/desk-1.sock 5; then
#         ...                        # you hold the lock; ask lock_is_lost now and then
#         lock_release || ...        # it was lost meanwhile
#     fi
#
# As a program it holds the lock until standard input ends: tokentree_lock.sh SOCKET SECONDS
# It uses the descriptors 8 and 9.

# Waits for the lock for so many seconds. Status 124: it was not granted in time; 125: the node is not there or has no room.
lock_acquire() {
    lock_folder=$(mktemp -d) && mkfifo "$lock_folder/to" "$lock_folder/from" || return 125
    socat - "UNIX-CONNECT:$1" <"$lock_folder/to" >"$lock_folder/from" 2>/dev/null &
    lock_socat=$!
    exec 8>"$lock_folder/to" 9<"$lock_folder/from"
    echo lock >&8 2>/dev/null
    lock_word=$(timeout "$2" head -n 1 <&9) && case $lock_word in
    granted)
        # What the node says next: `lost`, or the answer to `unlock`. The file is there once it has said it.
        (head -n 1 >"$lock_folder/word"; mv "$lock_folder/word" "$lock_folder/said") <&9 8>&- &
        return 0 ;;
    *) false ;;
    esac
    lock_status=$?
    lock_close
    [ $lock_status -ne 124 ] && return 125
    return 124
}

# Whether the node has ended the hold, or is gone.
lock_is_lost() {
    [ -e "$lock_folder/said" ]
}

# Releases the lock. Status 122: it was lost before.
lock_release() {
    lock_is_lost && lock_status=122 || lock_status=0
    echo unlock >&8 2>/dev/null
    lock_tries=0
    until lock_is_lost || [ $lock_tries -ge 1000 ]; do
        lock_tries=$((lock_tries + 1))
        sleep 0.01
    done
    [ "$(cat "$lock_folder/said" 2>/dev/null)" = released ] || lock_status=122
    lock_close
    return $lock_status
}

lock_close() {
    exec 8>&- 9<&-
    kill $lock_socat 2>/dev/null
    rm -rf "$lock_folder"
}

# As a program.
[ "${0##*/}" = tokentree_lock.sh ] || return 0
trap '' PIPE
lock_acquire "$1" "$2" || exit
echo granted
exec 7<&0
cat <&7 >/dev/null &
while kill -0 $! 2>/dev/null && ! lock_is_lost; do sleep 0.02; done
kill $! 2>/dev/null
lock_release && echo released || { echo lost; exit 122; }
