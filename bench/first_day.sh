#!/bin/sh
# Does what a new user and an operator do on their first day, slips included, and reports what is wrong: which line on
# standard error names a mistake, how the program ends when its reader goes or the disk is full, that examples recover,
# that a large picture is quick, that `lock` waits as asked, that nodes end by `stop` and `up` by signals and by the end
# of its input, what a node says of its file and of its clients, who may do what with `--group-locks`, what the
# completions of bash and fish offer, and that documents explain the words. Status 1 if anything is wrong.
#
#   bench/first_day.sh
#
# The program is ./tokentree, or what TOKENTREE names. It takes two minutes. What needs root, python3 or fish is left out
# without it.
set -u
cd "$(dirname "$0")/.." || exit 1
[ -n "${TOKENTREE:-}" ] || ./tokentree --build || exit 1
program=$(realpath "${TOKENTREE:-crates/tokentree/out/tokentree}")
examples=$PWD/examples
completions=$PWD/packaging/completions
operating=$PWD/docs/OPERATING.md
made=$(mktemp -d)
running=
# shellcheck disable=SC2086
trap '[ -z "$running" ] || kill -9 $running 2>/dev/null; rm -rf "$made"' EXIT
cd "$made" || exit 1
found=0
wrong() {
    echo "first_day: $1" >&2
    found=1
}

# The command ends with this status and these lines on standard error.
#   ends STATUS LINES WORD ..
ends() {
    wanted=$1 lines=$2
    shift 2
    "$program" "$@" >output 2>said </dev/null
    status=$?
    [ "$status" -eq "$wanted" ] || wrong "$*: status $status, and not $wanted"
    [ "$(cat said)" = "$lines" ] || wrong "$*: says $(cat said), and not $lines"
}

network() { printf 'nodes = 3\nroot = 0\ncapacity = 64\n%s\nedges = [[0, 1], [1, 2], [0, 2]]\n' "$1"; }
network 'lease = 0' >ring.toml

# Mistakes in files: which file, which key, which place; and the fixed line last.
network 'leese = 0' >x.toml
ends 1 "tokentree: x.toml: no key 'lease'; it has an unknown key 'leese'
tokentree: network Missing" bound x.toml
network 'lease = "0"' >x.toml
ends 1 "tokentree: x.toml: key 'lease': must be an integer
tokentree: network Shape" bound x.toml
network 'lease = 70000' >x.toml
ends 1 "tokentree: x.toml: key 'lease': 70000 must be an integer from 0 to 65535
tokentree: network BadLease" bound x.toml
sed 's/\[0, 2\]/[0, 3]/' ring.toml >x.toml
ends 1 "tokentree: x.toml: key 'edges': in edge [0, 3] one is none of 3 nodes
tokentree: network BadEdge" bound x.toml
sed 's/, \[0, 2\]/, [1, 0]/' ring.toml >x.toml
ends 1 "tokentree: x.toml: key 'edges': edge [0, 1] is there twice
tokentree: network DoubleEdge" bound x.toml
sed 's/, \[1, 2\], \[0, 2\]//' ring.toml >x.toml
ends 1 "tokentree: x.toml: key 'edges': the edges do not join all nodes
tokentree: network Apart" bound x.toml
printf 'nodes = 3\nroot = \n' >x.toml
"$program" bound x.toml 2>said
grep -q '^tokentree: x.toml: line 2, column [0-9]*: ' said || wrong "a mistake of TOML names no line: $(cat said)"
[ "$(tail -n 1 said)" = "tokentree: network NotToml" ] || wrong "the fixed line is not the last: $(cat said)"
ends 1 "tokentree: absent.toml: No such file or directory (os error 2)
tokentree: network Unreadable" bound absent.toml
ends 1 "tokentree: .: is a folder
tokentree: network Unreadable" bound .
ends 1 "tokentree: .: is a folder
tokentree: . is a folder, and ring.toml a file: FILE comes before DIR
tokentree: network Unreadable" up . ring.toml
ends 1 "tokentree: absent.txt: No such file or directory (os error 2)
tokentree: the events cannot be read" simulate ring.toml absent.txt

ends 1 "tokentree: ring.toml: no node 7 is in it
tokentree: the network has no such node" scramble ring.toml 7 state 1

# Mistakes in words: one line, and which help to try.
for words in 'bound' 'bound --sharq ring.toml' 'bonud ring.toml' 'node --hold 2001 ring.toml 0 run' 'lock run one' \
    'measure ring.toml --runs 0' 'draw ring.toml - --from 2 --to 1' 'lock run 1 --' 'lock run 1 -E 0' 'stop' ''; do
    # shellcheck disable=SC2086
    "$program" $words >output 2>said </dev/null
    status=$?
    { [ $status -eq 2 ] && [ "$(wc -l <said)" -eq 1 ] && grep -q '^tokentree: .*; try: tokentree help' said; } ||
        wrong "'$words': status $status: $(cat said)"
done
for words in '--version' '-V' '-v' 'version' 'lock --version'; do
    # shellcheck disable=SC2086
    [ "$("$program" $words 2>&1)" = "$("$program" --version)" ] || wrong "'$words' does not show the version"
done

# A reader that goes, and a full disk.
"$program" schedule ring.toml --rounds 100000 >schedule.txt
for words in 'junk 1 1000000' 'schedule ring.toml --rounds 100000' 'simulate ring.toml schedule.txt' 'help lock' \
    'help simulate'; do
    # shellcheck disable=SC2086
    { "$program" $words 2>said; echo $? >status; } | true
    status=$(cat status)
    { [ "$status" -eq 141 ] || [ "$status" -eq 0 ]; } && [ ! -s said ] || wrong "'$words | true': status $status: $(cat said)"
    # shellcheck disable=SC2086
    [ ! -w /dev/full ] || {
        "$program" $words >/dev/full 2>said
        { [ $? -eq 1 ] && grep -q '^tokentree: standard output: No space left' said; } ||
            wrong "'$words > /dev/full': $(cat said)"
    }
done

# The examples of the help, word for word; for a user's own file, an example.
ln -s "$examples" examples
cp examples/forged-tokens.txt events.txt
"$program" --help | sed -n '/^Examples:/,/^$/s/^  tokentree //p' >words
[ "$(wc -l <words)" -ge 5 ] || wrong "the help shows few examples: $(cat words)"
while read -r words; do
    sh -c "\"\$0\" $words" "$program" >output 2>said || wrong "the help's example '$words' fails: $(cat said)"
    case $words in
    'simulate examples/square'* | threads*)
        [ "$(tail -n 1 output | cut -d ' ' -f 2)" -gt 0 ] || wrong "the help's example '$words' shows no sweep" ;;
    esac
done <words

# The examples recover.
recovers() { awk '/^privileged/ { p = $2 } /^sweeps/ { s = $2; r = $4 } END { exit !(p <= 1 && s > 0 && r > 0) }' output; }
for seed in 1 2 3 4 5 6 7; do
    "$program" schedule "$examples/square.toml" --scramble $seed --rounds 600 >schedule.txt
    "$program" simulate "$examples/square.toml" schedule.txt >output
    recovers || wrong "the schedule of seed $seed does not recover: $(tail -n 1 output)"
done


# Without a lease they do if the lock is released; else, and only then, a line says what holds up the sweeps.
held='tokentree: a node lends the lock without a lease: no sweep ends until its ticket leaves'
seen=0
for seed in 1 2 3 4 5 6 7; do
    "$program" schedule ring.toml --scramble $seed --rounds 100 --give-back 1 >schedule.txt
    "$program" simulate ring.toml schedule.txt >output 2>said
    { recovers && [ ! -s said ]; } || wrong "the schedule of seed $seed with --give-back: $(tail -n 1 output) $(cat said)"
    "$program" schedule ring.toml --scramble $seed --rounds 100 >schedule.txt
    "$program" simulate ring.toml schedule.txt >output 2>said
    if [ "$(tail -n 1 output | cut -d ' ' -f 2)" = 0 ]; then
        seen=$((seen + 1))
        [ "$(cat said)" = "$held" ] || wrong "seed $seed without a lease says $(cat said)"
    else
        [ ! -s said ] || wrong "seed $seed says $(cat said)"
    fi
done
[ $seen -gt 0 ] || wrong 'no seed has a loan that holds up the sweeps'

# Threads begin together and take turns: a thousand turns hold sweeps, and each node finds its place.
for _ in $(seq 10); do
    "$program" threads "$examples/square.toml" 1000 >output
    recovers || wrong "1,000 turns on threads do not recover: $(tail -n 1 output)"
    [ "$(head -n 4 output | cut -d ' ' -f 4,6 | tr '\n' ',')" = '0 none,1 0,1 0,2 1,' ] || wrong "threads: $(head -n 4 output)"
done

# Lines that end in CRLF are refused, and a line says why, once.
printf 'tick 0\r\ntick 1\r\n' >crlf.txt
ends 3 'tokentree: the events have carriage returns (CRLF): a line ends in a newline alone' simulate ring.toml crlf.txt
ends 3 'tokentree: the events have carriage returns (CRLF): a line ends in a newline alone' draw ring.toml crlf.txt
printf 'tick 0\nTick 1\n' >plain.txt
ends 3 '' simulate ring.toml plain.txt
ends 3 '' draw ring.toml plain.txt

# A picture of 64 nodes takes at most a second of a processor.
seconds() { bash -c 'TIMEFORMAT="%U"; time "$@" >output 2>said' bash "$@" 2>&1; }
"$program" network ring 64 >large.toml
"$program" schedule large.toml --scramble 1 --random 174000 --seed 1 >large.txt
drawn=$(seconds "$program" draw large.toml large.txt)
awk -v d="$drawn" 'BEGIN { exit !(d <= 1) }' || wrong "174,000 events of a ring of 64 are drawn in $drawn s"
# Ten times as many events are drawn in at most twice the time of their simulation; of each the best of five counts.
"$program" schedule large.toml --scramble 1 --random 1740000 --seed 1 >larger.txt
best() { for _ in 1 2 3 4 5; do seconds "$program" "$@"; done | sort -n | head -n 1; }
drawn=$(best draw large.toml larger.txt)
simulated=$(best simulate large.toml larger.txt)
awk -v d="$drawn" -v s="$simulated" 'BEGIN { exit !(d <= 2 * s) }' ||
    wrong "1,740,000 events of a ring of 64 are drawn in $drawn s, and simulated in $simulated s"
rm larger.txt
# A drawing of more than two seconds shows its progress on a terminal, and then removes the line.
if command -v python3 >/dev/null; then
    python3 - "$program" <<'PYTHON' || wrong "a long drawing shows nothing on a terminal: $(cat said)"
import os, subprocess, sys, time
ours, theirs = os.openpty()
words = [sys.argv[1], "draw", "ring.toml", "-"]
drawing = subprocess.Popen(words, stdin=subprocess.PIPE, stdout=subprocess.DEVNULL, stderr=theirs)
os.close(theirs)
for _ in range(30):
    drawing.stdin.write(b"tick 0\n" * 10_000)
    drawing.stdin.flush()
    time.sleep(0.1)
drawing.stdin.close()
assert drawing.wait() == 0
said = b""
try:
    while part := os.read(ours, 65536):
        said += part
except OSError:
    pass  # All was read: nobody has the other end any more.
open("said", "wb").write(said)
sys.exit(not (b"\r1 MB of events" in said and said.endswith(b"\r\x1b[K")))
PYTHON
    "$program" draw ring.toml large.txt 2>said >output
    [ ! -s said ] || wrong "without a terminal a drawing says $(cat said)"
fi

# Help fits a terminal of 80 columns.
for words in --help $("$program" --help | awk '/^Commands:/ { on = 1; next } on && /^$/ { exit } on { print "help," $1 }'); do
    words=$(echo "$words" | tr , ' ')
    # shellcheck disable=SC2086
    "$program" $words >output 2>said
    [ "$(awk 'length > 80' output | wc -l)" -eq 0 ] || wrong "$words has lines over 80 columns: $(awk 'length > 80' output)"
done

# Waits until each node of a ring of three has said that it is ready, in these files or in that of `up`.
ready() {
    for _ in $(seq 100); do [ "$(cat "$@" 2>/dev/null | grep -c 'ready$')" -eq 3 ] && break; sleep 0.1; done
}
# Takes the lock at a node, in the background, until the file `held` is gone.
hold() {
    : >held
    "$program" lock "$@" -- sh -c 'echo held; while [ -e held ]; do sleep 0.05; done' >holding 2>said-held &
    holder=$!
    for _ in $(seq 100); do grep -qs held holding && break; sleep 0.1; done
}
# The command ends with this status; if that is the program's own, standard error has these lines, else none.
locks() {
    wanted=$1
    shift
    "$program" lock "$@" >output 2>said </dev/null
    status=$?
    [ "$status" -eq "$wanted" ] || wrong "lock $*: status $status, and not $wanted: $(cat said)"
}

# What `lock` says about mistakes, how it waits, and what its options do; how `status` shows links.
setsid env --block-signal=HUP,INT,TERM,TTIN "$program" up ring.toml waits >up.out 2>&1 </dev/null &
running=$!
ready up.out
sleep 1
ends 2 'tokentree: no command follows --: leave -- out to hold the lock until standard input ends; try: tokentree help lock' \
    lock waits 1 --
locks 125 /etc/passwd 1 -- true
[ "$(cat said)" = 'tokentree: there is no folder /etc/passwd' ] || wrong "lock /etc/passwd says $(cat said)"
locks 125 waits 9 -- true
grep -q '^tokentree: nobody listens at waits/desk-9.sock' said || wrong "lock waits 9 says $(cat said)"
ends 1 'tokentree: node 9 never ran in waits, which has neither a socket nor a state of it' status waits 9
[ "$("$program" status waits --links | grep -c '^node [0-2] link [0-2] up for ')" -eq 6 ] ||
    wrong "the links are $("$program" status waits --links)"
locks 0 --verbose waits 1 -- true
[ "$(cat said)" = 'tokentree: waiting at node 1
tokentree: node 1 granted the lock
tokentree: node 1 took the lock back' ] || wrong "lock --verbose says $(cat said)"
TOKENTREE_DIR=waits TOKENTREE_NODE=2 "$program" lock -- echo by-variables >output 2>said || wrong "no lock by variables: $(cat said)"
[ "$(cat output)" = by-variables ] || wrong "by variables the command prints $(cat output)"
locks 7 waits any -- sh -c 'exit 7'
locks 0 -n waits 1 -- true
hold waits 0
for words in '-n' '--no-wait' '--timeout 0.2'; do
    began=$(date +%s%N)
    # shellcheck disable=SC2086
    locks 124 $words waits 1 -- true
    took=$((($(date +%s%N) - began) / 1000000))
    [ $took -lt 2000 ] || wrong "lock $words gives up after $took ms"
done
rm held
wait $holder || wrong "who held the lock has $?: $(cat said-held)"
# A lost lock has the status that was asked for: node 2 is killed while a command holds its lock.
hold -E 75 waits 2
kill -KILL "$(pgrep -g $running -f ' 2 waits$')"
wait $holder
status=$?
[ $status -eq 75 ] || wrong "with -E 75 a lost lock has status $status: $(cat said-held)"
rm -f held
kill -TERM $running
wait $running || wrong "up does not end well after the locks: $(cat up.out)"
running=

# `stop` ends nodes, and only once.
for node in 0 1 2; do
    "$program" node ring.toml $node run >"node-$node" 2>&1 </dev/null &
    running="$running $!"
done
for _ in $(seq 100); do grep -qs ready node-0 && grep -qs ready node-1 && grep -qs ready node-2 && break; sleep 0.1; done
ends 0 '' stop run 1
[ "$(cat output)" = 'node 1 has ended' ] || wrong "stop run 1 prints $(cat output)"
ends 1 'tokentree: node 1 does not run in run' stop run 1
ends 0 '' stop run
[ ! -e run/stop-0 ] && [ ! -e run/stop-1 ] || wrong "a stop file stays"
wait
running=

# A node says which edges came and went, and why it does not use a file. `scramble` and `cut` say that it runs.
network 'lease = 0' >live.toml
"$program" node live.toml 0 live >node-0 2>said </dev/null &
running=$!
for _ in $(seq 100); do grep -qs ready node-0 && break; sleep 0.1; done
sed 's/, \[0, 2\]//' live.toml >new.toml && mv new.toml live.toml && sleep 2
sed 's/nodes = 3/nodes = 4/; s/\[1, 2\]/[1, 2], [2, 3]/' live.toml >new.toml && mv new.toml live.toml && sleep 2
echo '[' >new.toml && mv new.toml live.toml && sleep 2
[ "$(cat said)" = "tokentree: node 0 takes up live.toml: edges that came: none; that went: [0, 2]
tokentree: node 0 does not take up live.toml: while nodes run, only edges may change
tokentree: node 0 does not take up live.toml: network NotToml" ] || wrong "of its file a node says $(cat said)"
ends 0 "tokentree: live/state-0.tkt: node 0 runs, and writes this file again within half a second; kill it before, or stop it first" \
    scramble ring.toml 0 live/state-0.tkt 7
ends 0 "tokentree: live/state-0.tkt: node 0 runs, and writes this file again within half a second; kill it before, or stop it first" \
    cut live/state-0.tkt 33
ends 0 '' stop live
ends 0 '' cut live/state-0.tkt 33
wait
running=

# `up` without an input runs on, ends its nodes at a signal, and kills them at the second.
for round in once twice; do
    setsid env --default-signal=INT --block-signal=HUP,INT,TERM,TTIN "$program" up ring.toml "up-$round" >up.out 2>&1 </dev/null &
    running=$!
    for _ in $(seq 100); do [ "$(grep -c ' ready' up.out)" -eq 3 ] && break; sleep 0.1; done
    sleep 1
    kill -0 $running || wrong "up does not run on with nothing as its input: $(cat up.out)"
    if [ $round = once ]; then
        kill -TERM $running
        wanted='node 0 has ended node 1 has ended node 2 has ended '
    else
        # Both come to the whole group, as from a terminal.
        kill -STOP "$(pgrep -g $running -f ' 1 up-twice$')"
        kill -INT "-$running"
        for _ in $(seq 45); do [ "$(grep -c ' has ended' up.out)" -eq 2 ] && break; sleep 0.1; done
        kill -INT "-$running"
        wanted='node 0 has ended node 1 was ended by signal 9 node 2 has ended '
    fi
    wait $running || wrong "up does not end well"
    [ "$(grep -v -e start -e ready up.out | sort | tr '\n' ' ')" = "$wanted" ] || wrong "asked $round, up says $(cat up.out)"
    running=
done

# It also ends well at SIGHUP, and at the end of a pipe.
goodbye='node 0 has ended node 1 has ended node 2 has ended '
says_goodbye() {
    [ "$(grep 'has ended' up.out | sort | tr '\n' ' ')" = "$goodbye" ] || wrong "$1: up says $(cat up.out)"
}
setsid env --default-signal=HUP --block-signal=HUP,INT,TERM,TTIN "$program" up ring.toml up-hup >up.out 2>&1 </dev/null &
running=$!
ready up.out
kill -HUP $running
wait $running || wrong "up does not end well at SIGHUP"
says_goodbye SIGHUP
mkfifo pipe
setsid env --block-signal=HUP,INT,TERM,TTIN "$program" up ring.toml up-pipe >up.out 2>&1 <pipe &
running=$!
exec 3>pipe
ready up.out
sleep 1
kill -0 $running || wrong "up does not run on while its pipe is open"
exec 3>&-
wait $running || wrong "up does not end well at the end of its input"
running=
says_goodbye 'the end of a pipe'

# On a terminal Ctrl-D and Ctrl-C end it well, and in the background of a shell it is not stopped.
if command -v python3 >/dev/null; then
    python3 - "$program" 2>said <<'PYTHON' || wrong "up does not behave on a terminal: $(cat said)"
import os, pty, select, sys, time

UP = ["env", "--block-signal=HUP,INT,TERM,TTIN", sys.argv[1], "up", "ring.toml"]


class Terminal:
    """A command on a terminal of its own, and all that it writes there."""

    def __init__(self, words):
        self.said = b""
        self.process, self.terminal = pty.fork()
        if self.process == 0:
            os.execvp(words[0], words)

    def wait_for(self, text, count):
        end = time.monotonic() + 20
        while self.said.count(text) < count and time.monotonic() < end:
            if select.select([self.terminal], [], [], 0.1)[0]:
                try:
                    self.said += os.read(self.terminal, 4096)
                except OSError:
                    break

    def ends_well(self):
        self.wait_for(b" has ended", 3)
        status = os.waitstatus_to_exitcode(os.waitpid(self.process, 0)[1])
        assert status == 0 and self.said.count(b" has ended") == 3, (status, self.said)


for name, key in ("ctrl-d", b"\x04"), ("ctrl-c", b"\x03"):
    up = Terminal([*UP, f"up-{name}"])
    up.wait_for(b" ready", 3)
    os.write(up.terminal, key)
    up.ends_well()

IN_BACKGROUND = 'set -m; "$@" & sleep 3; echo "stat $(ps -o stat= -p $!)"; kill -TERM $!; wait $!'
shell = Terminal(["bash", "-c", IN_BACKGROUND, "bash", *UP, "up-background"])
shell.wait_for(b"stat ", 1)
shell.ends_well()
assert b"stat S" in shell.said or b"stat R" in shell.said, shell.said
PYTHON
fi

# A node warns if links hold fewer frames than may be under way, and the help gives a new user the same number.
sed 's/capacity = 64/capacity = 1/' ring.toml >small.toml
"$program" node small.toml 0 small >node-0 2>said </dev/null &
running=$!
for _ in $(seq 100); do grep -qs ready node-0 && break; sleep 0.1; done
"$program" stop small >output
wait
running=
{ grep -q 36 said && "$program" help node | grep -q ' 36 frames'; } || wrong "of a small capacity a node says $(cat said)"

# A member of the group can take the lock, and nothing else.
if [ "$(id -u)" -eq 0 ] && command -v setpriv >/dev/null; then
    chmod 755 . && install -d -o 54321 -g 54321 grouped && cp "$program" tokentree && chmod 755 tokentree
    as() { setpriv --reuid="$1" --regid=54321 --clear-groups sh -c "umask 022; exec $2"; }
    printf 'nodes = 2\nroot = 0\ncapacity = 64\nlease = 0\nedges = [[0, 1]]\n' >two.toml
    as 54321 "./tokentree node --group-locks two.toml 0 grouped/nodes" >node-0 2>&1 </dev/null &
    running=$!
    as 54321 "./tokentree node --group-locks two.toml 1 grouped/nodes" >node-1 2>&1 </dev/null &
    running="$running $!"
    for _ in $(seq 100); do grep -qs ready node-0 && grep -qs ready node-1 && break; sleep 0.1; done
    sleep 1
    [ "$(as 12345 './tokentree lock --timeout 20 grouped/nodes 1 -- echo locked')" = locked ] ||
        wrong "no member of the group gets the lock"
    for deed in 'touch grouped/nodes/stop-0' 'rm -f grouped/nodes/state-0.tkt' 'cat grouped/nodes/state-0.tkt' \
        './tokentree stop grouped/nodes 0' 'mv grouped/nodes/desk-0.sock grouped/nodes/desk-9.sock'; do
        as 12345 "$deed" >output 2>said && wrong "a member of the group may $deed"
    done
    connect='import socket, sys; socket.socket(socket.AF_UNIX).connect(sys.argv[1])'
    if command -v python3 >/dev/null; then
        as 12345 "python3 -c '$connect' grouped/nodes/desk-0.sock" 2>said || wrong "a member of the group is not let in: $(cat said)"
        for name in node look; do
            as 12345 "python3 -c '$connect' grouped/nodes/$name-0.sock" 2>said && wrong "a member of the group may write into $name-0"
        done
    fi
    modes=$(stat -c '%a %n' grouped/nodes grouped/nodes/*-0.sock grouped/nodes/state-0.tkt grouped/nodes/lock-0 | tr '\n' ' ')
    [ "$modes" = "750 grouped/nodes 660 grouped/nodes/desk-0.sock 600 grouped/nodes/look-0.sock 600 grouped/nodes/node-0.sock 600\
 grouped/nodes/state-0.tkt 600 grouped/nodes/lock-0 " ] || wrong "the rights are $modes"
    as 54321 "./tokentree stop grouped/nodes" >output || wrong "the nodes' user cannot stop them"
    wait
    running=
fi

# A node's log at two levels, one of them for a journal; nothing without the option.
printf 'nodes = 2\nroot = 0\ncapacity = 64\nlease = 0\nedges = [[0, 1]]\n' >two.toml
"$program" node --log 6 two.toml 0 logged >node-0 2>said </dev/null &
running=$!
JOURNAL_STREAM=1:1 "$program" node --log 4 two.toml 1 logged >node-1 2>said-1 </dev/null &
running="$running $!"
for _ in $(seq 100); do grep -qs ready node-0 && grep -qs ready node-1 && break; sleep 0.1; done
"$program" lock --timeout 20 logged 0 -- true || wrong "no lock from nodes with a log"
sleep 1
"$program" stop logged 0 >output && sleep 1 && "$program" stop logged 1 >output
wait
running=
# A link is looked at in every other turn, so its line may come before the first grant or after it.
grep -qx 'tokentree: node 0: the link to node 1 is up' said || wrong "a node's log has no line for its link"
[ "$(grep -v ' link ' said | sed 's/ticket [0-9]*/ticket N/')" = "tokentree: node 0: begins
tokentree: node 0: ticket N is granted the lock
tokentree: node 0: ticket N has given the lock back
tokentree: node 0: ends" ] || wrong "the log of a node is $(cat said)"
[ "$(cat said-1)" = "<4>tokentree: node 1: the link to node 0 is down" ] || wrong "the log of a node for a journal is $(cat said-1)"

# It says which client lost the lock at the end of its lease, and, once, that clients are refused: 64 wait, and one more
# asks.
if command -v python3 >/dev/null; then
    printf 'nodes = 2\nroot = 0\ncapacity = 64\nlease = 100\nedges = [[0, 1]]\n' >leased.toml
    "$program" node --log 5 leased.toml 0 refuses >node-0 2>said </dev/null &
    running=$!
    "$program" node leased.toml 1 refuses >node-1 2>said-1 </dev/null &
    running="$running $!"
    for _ in $(seq 100); do grep -qs ready node-0 && grep -qs ready node-1 && break; sleep 0.1; done
    sleep 1
    python3 - refuses/desk-0.sock <<'PYTHON' || wrong "of 66 clients not one is granted the lock, and loses it, and one refused"
import socket, sys


def client():
    made = socket.socket(socket.AF_UNIX)
    made.settimeout(20)
    made.connect(sys.argv[1])
    made.sendall(b"lock\n")
    return made


holder = client()
assert holder.recv(100) == b"granted\n"
waiting = [client() for _ in range(64)]
assert client().recv(100) == b"full\n"
assert holder.recv(100) == b"lost\n"
PYTHON
    sleep 1
    "$program" stop refuses >output
    wait
    running=
    grep -q '^tokentree: node 0: 64 clients wait, and further ones are refused' said || wrong "of refused clients a node says $(cat said)"
    grep -q '^tokentree: node 0: ticket [0-9]* has lost the lock' said || wrong "of a lost lock a node says $(cat said)"
    grep -q '^tokentree: node 0: clients may wait again' said || wrong "of free places a node says $(cat said)"
    [ "$(grep -c 'are refused' said)" -eq 1 ] || wrong "that clients are refused is said more than once: $(cat said)"
fi

# It also says, once, that clients are closed: 128 are connected, and more come; and then that they may connect again.
if command -v python3 >/dev/null; then
    JOURNAL_STREAM=1:1 "$program" node --log 5 two.toml 0 crowded >node-0 2>said </dev/null &
    running=$!
    for _ in $(seq 100); do grep -qs ready node-0 && break; sleep 0.1; done
    python3 - crowded/desk-0.sock <<'PYTHON' || wrong "of 131 clients not just three are closed at once"
import socket, sys, time


def client():
    made = socket.socket(socket.AF_UNIX)
    made.settimeout(20)
    made.connect(sys.argv[1])
    return made


def is_served(one):
    one.sendall(b"status\n")
    return one.recv(200).startswith(b"node 0 distance 0 ")


connected = [client() for _ in range(128)]
assert all(is_served(one) for one in connected)
for _ in range(3):
    assert client().recv(100) == b""
assert all(is_served(one) for one in connected)
time.sleep(0.5)
for one in connected[:64]:
    one.close()
time.sleep(0.5)
assert is_served(client())
PYTHON
    "$program" stop crowded >output
    wait
    running=
    [ "$(cat said)" = "<5>tokentree: node 0: begins
<4>tokentree: node 0: 128 clients are connected, and further ones are closed
<5>tokentree: node 0: clients may connect again
<5>tokentree: node 0: ends" ] || wrong "of closed clients a node says $(cat said)"
fi

# A node says that it has been out of its place for two seconds, as one that reaches no other, and when it is back.
"$program" node --log 5 two.toml 1 astray >node-1 2>said </dev/null &
running=$!
for _ in $(seq 50); do grep -q wrong said && break; sleep 0.1; done
"$program" node two.toml 0 astray >node-0 2>said-0 </dev/null &
running="$running $!"
for _ in $(seq 100); do grep -q again said && break; sleep 0.1; done
"$program" stop astray >output
wait
running=
[ "$(grep -v ' link ' said)" = "tokentree: node 1: begins
tokentree: node 1: its distance or parent has been wrong for 2 s
tokentree: node 1: its distance and parent are right again
tokentree: node 1: ends" ] || wrong "of its place a node says $(cat said)"

# A service manager hears that a node is ready, by a path and by an abstract name.
if command -v python3 >/dev/null; then
    for name in "$made/notify" "@tokentree-$$"; do
        python3 - "$name" "$program" <<'PYTHON' || wrong "no READY=1 comes to $name"
import os, socket, subprocess, sys
name, program = sys.argv[1:]
manager = socket.socket(socket.AF_UNIX, socket.SOCK_DGRAM)
manager.bind("\0" + name[1:] if name[0] == "@" else name)
manager.settimeout(20)
node = subprocess.Popen([program, "node", "ring.toml", "0", "notified"], env={**os.environ, "NOTIFY_SOCKET": name},
                        stdout=subprocess.DEVNULL)
heard = manager.recv(100)
subprocess.run([program, "stop", "notified"], check=True, stdout=subprocess.DEVNULL)
sys.exit(heard != b"READY=1" or node.wait() != 0)
PYTHON
    done
fi

# What bash offers.
command -v bash >/dev/null && bash --norc --noprofile -c '
    source "$1"
    wrong=0
    offers() {
        local wanted=$1
        COMP_WORDS=("${@:2}") COMP_CWORD=$(($# - 2)) COMPREPLY=()
        _tokentree
        local got="${COMPREPLY[*]}"
        [ "$got" = "$wanted" ] || { echo "first_day: bash offers <$got> and not <$wanted> after: ${*:2}" >&2; wrong=1; }
    }
    mkdir -p some && : >some/desk-0.sock && : >some/desk-2.sock
    offers "0 2" tokentree lock some ""
    offers "0 1 2" tokentree node ring.toml ""
    offers "some" tokentree status so
    offers "ring.toml" tokentree bound rin
    offers "" tokentree lock some 0 -- ls --ti
    offers "" tokentree lock some 0 ls --ti
    offers "--timeout" tokentree lock --ti
    offers "" tokentree lock --timeout ""
    exit $wrong' bash "$completions/tokentree.bash"
[ $? -eq 0 ] || found=1

# What fish offers: after `--` the command's words, and no flag of lock; before it those of lock.
if command -v fish >/dev/null; then
    HOME=$made fish --no-config -c '
        source $argv[1]
        complete -c some-command -l of-its-own
        contains -- --of-its-own (complete -C "tokentree lock some 0 -- some-command --of"); or echo none of the command after --
        string match -q -- "--time*" (complete -C "tokentree lock some 0 -- some-command --ti"); and echo flags of lock after --
        string match -q -- "--timeout*" (complete -C "tokentree lock --ti"); or echo no flag of lock' \
        "$completions/tokentree.fish" >output 2>&1
    [ ! -s output ] || wrong "fish offers $(cat output)"
fi

# The words that a new user meets are explained.
for word in node root sweep tick token privileged desk ticket lease capacity; do
    sed -n '/^## Glossary/,$p' "$operating" | grep -q "^| $word |" || wrong "the glossary lacks $word"
done

[ $found -ne 0 ] || echo "first_day: all is as it should be"
exit $found
