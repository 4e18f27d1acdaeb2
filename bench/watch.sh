#!/bin/sh
# Watches a ring of three in a terminal of tmux. By captures of its pane it checks that `status --watch` shows the tree,
# a node that lends, one that is frozen and killed, and the last minute; that a small terminal does no harm; and that
# Ctrl-C ends it with status 0 and leaves the terminal as it was. Then it checks that blocks come one after the other
# without a terminal, and that jq reads what --json prints for status, bound and measure. Prints a line for each; status
# 1 if one is wrong.
#
# The program is ./tokentree, or what TOKENTREE names. Needs tmux, jq, pgrep and stty.
set -u
cd "$(dirname "$0")/.."
for tool in tmux jq pgrep stty; do
    command -v "$tool" >/dev/null || { echo "needs $tool" >&2; exit 1; }
done
program=$(readlink -f "${TOKENTREE:-./tokentree}")
made=$(mktemp -d /tmp/watch-XXXXXX)
nodes=$made/nodes
session=watch-$$
found=0
up=

# A server of its own, so that your sessions and settings stay untouched.
pane() { tmux -L "$session" -f /dev/null "$@" 3>&-; }

tidy() {
    pane kill-server 2>/dev/null
    exec 3>&-
    [ -z "$up" ] || wait "$up" 2>/dev/null
    rm -rf "$made"
}
trap tidy EXIT
trap 'exit 1' HUP INT TERM

# hold WHAT COMMAND ..: says whether a command succeeds within five seconds.
hold() {
    what=$1
    shift
    for _ in 1 2 3 4 5 6 7 8 9 10; do
        if "$@"; then
            echo "right: $what"
            return
        fi
        sleep 0.5
    done
    echo "WRONG: $what"
    found=1
}

shows() { pane capture-pane -p -t "$session" | grep -q -e "$1"; }
shows_not() { ! shows "$1"; }
said() { grep -q -e "$1" "$2"; }
said_not() { ! said "$1" "$2"; }
answer() { "$program" status "$nodes" >/dev/null 2>&1 3>&-; }

# Only this script holds the pipe's other end: once it is closed, `up` ends its nodes and itself.
mkfifo "$made/input"
"$program" up examples/ring-of-three.toml "$nodes" <"$made/input" >"$made/up" 2>&1 &
up=$!
exec 3>"$made/input"
hold "the nodes answer" answer

pane new-session -d -s "$session" -x 80 -y 12 sh
watch="'$program' status $nodes --watch"
pane send-keys -t "$session" "stty -g >$made/before; $watch; echo ended \$? >$made/ended; stty -g >$made/after" Enter
hold "the root stands at the left" shows '^node 0 distance 0'
hold "a child stands under it" shows '^  node [12] distance 1'
hold "the counts are shown" shows '^privileged [0-9]* lending 0'
hold "the loans of the last minute are shown" shows '^last minute: [0-9]*\.[0-9] loans a second, longest [0-9.]* s$'
hold "the token came round" shows '^last minute: the token came round [1-9][0-9]*\.[0-9] times a second$'
"$program" lock "$nodes" 2 -- sleep 6 3>&- &
lock=$!
hold "a loan is shown" shows 'node 2 distance 1 token lent [0-9]* for [0-9]*\.[0-9]* s'
hold "the counts say it" shows 'lending 1'
wait "$lock"
hold "its length is shown after it" shows 'longest [67]\.[0-9]* s$'
# The node and the folder are the last words of its process.
kill -STOP "$(pgrep -f " 1 $nodes$")"
hold "a node that is frozen does not answer" shows '^node 1 no answer'
kill -9 "$(pgrep -f " 1 $nodes$")"
hold "killed, it is started again" shows '^  node 1 distance 1'
pane resize-window -t "$session" -x 12 -y 2
sleep 1
pane resize-window -t "$session" -x 80 -y 12
hold "it goes on after a resize" shows '^  node [12] distance 1'
"$program" status "$nodes" 9 >/dev/null 2>"$made/never" 3>&-
hold "a node that never ran differs from a dead one" said 'node 9 never ran' "$made/never"
pane send-keys -t "$session" C-c
hold "Ctrl-C ends it with 0" said '^ended 0$' "$made/ended"
hold "the settings of the terminal are as they were" cmp -s "$made/before" "$made/after"
hold "the picture is gone" shows_not '^privileged'

timeout 2 "$program" status "$nodes" --watch --every 0.5 >"$made/blocks" 3>&-
hold "blocks have an empty line between" said '^$' "$made/blocks"
hold "and no escapes" said_not "$(printf '\033')" "$made/blocks"
timeout 2 "$program" status "$nodes" --watch --json >"$made/lines" 3>&-
hold "a watch gives JSON, a line a time" sh -c "[ \$(jq -c .lending '$made/lines' | wc -l) -gt 1 ]"
"$program" status "$nodes" --json >"$made/json" 3>&-
hold "status --json" jq -e '.nodes | length == 3 and .[0].node == 0 and .[0].parent == null and .[1].distance == 1' "$made/json"
"$program" bound examples/square.toml --json --sharp --time >"$made/json" 3>&-
hold "bound --json" jq -e '.sweeps == 461 and .sharp == 71 and .window_us == 12500 and (.parents | length) == 4' "$made/json"
"$program" measure examples/two-nodes.toml --runs 10 --json >"$made/json" 3>&-
hold "measure --json" jq -e '.runs == 10 and .sharp == 35 and .least <= .most and .seeds == []' "$made/json"

# check FOLDER FILE STATUS PATTERN: whether a check ends with this status, and a line that begins like this.
check() {
    "$program" status "$1" --check "$2" >"$made/check" 3>&-
    [ $? -eq "$3" ] && said "^tokentree $4" "$made/check"
}
hold "a check is OK" check "$nodes" examples/ring-of-three.toml 0 'OK - .* | nodes=3;;;0;3 answering=3;;;0;3 wrong=0;;;0;3 '
hold "another network is UNKNOWN" check "$nodes" examples/two-nodes.toml 3 'UNKNOWN - '
hold "a folder that is none is UNKNOWN" check "$made/none" examples/ring-of-three.toml 3 'UNKNOWN - there is no folder'
exec 3>&-
wait "$up"
up=
hold "where nobody answers it is CRITICAL" check "$nodes" examples/ring-of-three.toml 2 'CRITICAL - no node answers'
exit $found
