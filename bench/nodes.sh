#!/usr/bin/env bash
# Does to nodes that run as processes what their users may do by mistake: standard streams are closed, DIR is removed or
# made again while they run, the name of a socket or the stop file is a folder, DIR is read-only, the processes of `up`
# end at once. Prints a row for each: what was done, and what was seen, which must be what the row says. Status 1 if a
# row is wrong.
#
#   bench/nodes.sh
#
# The program is ./tokentree, or what TOKENTREE names. It takes half a minute. Needs python3.
set -euo pipefail
cd "$(dirname "$0")/.."
[ -n "${TOKENTREE:-}" ] || ./tokentree --build
program=$(realpath "${TOKENTREE:-crates/tokentree/out/tokentree}")
folder=$(mktemp -d)
trap 'rm -rf "$folder"' EXIT
python3 - "$program" "$folder" << 'PYTHON'
import os, shutil, signal, socket, subprocess, sys, time

program, top = sys.argv[1], sys.argv[2]
NETWORK = "nodes = 3\nroot = 0\ncapacity = 64\nlease = 0\nedges = [[0, 1], [1, 2], [0, 2]]\n"
PATIENCE = 20
wrong = 0


def fresh(name):
    """A network file, and the name of a new folder beside it."""
    file, where = os.path.join(top, name + ".toml"), os.path.join(top, name)
    open(file, "w").write(NETWORK)
    shutil.rmtree(where, ignore_errors=True)
    return file, where


def start(words, shell_end=""):
    """A process of the program; a shell may first close some of its streams."""
    if shell_end:
        line = 'exec "$0" "$@" ' + shell_end
        words = ["sh", "-c", line, program, *words]
    else:
        words = [program, *words]
    return subprocess.Popen(words, stdin=subprocess.PIPE, stdout=subprocess.PIPE, stderr=subprocess.PIPE, text=True)


def status_of(where, node):
    """The status line of a node, or none."""
    try:
        desk = socket.socket(socket.AF_UNIX)
        desk.settimeout(1)
        desk.connect("%s/desk-%d.sock" % (where, node))
        desk.sendall(b"status\n")
        return desk.recv(100).decode()
    except OSError:
        return ""


def until(holds):
    """Whether this becomes true in time."""
    end = time.time() + PATIENCE
    while time.time() < end:
        if holds():
            return True
        time.sleep(0.02)
    return False


def serves(where, node):
    return until(lambda: status_of(where, node).startswith("node %d " % node))


def ended(process):
    """The status and the texts of a process that ends by itself."""
    try:
        out, err = process.communicate(timeout=PATIENCE)
        return process.returncode, out, err
    except subprocess.TimeoutExpired:
        process.kill()
        out, err = process.communicate()
        return "runs on", out, err


def children_of(process):
    """The running processes that a process has started."""
    return [int(child) for child in open("/proc/%d/task/%d/children" % (process.pid, process.pid)).read().split()]


def row(what, seen, wanted):
    global wrong
    good = seen == wanted
    wrong += not good
    print("%-78s %s" % (what, "as it should" if good else "WRONG: %r, and not %r" % (seen, wanted)), flush=True)


# Closed streams: no file or socket of a node takes their place.
for streams in [">&-", "2>&-", ">&- 2>&-", "<&- >&- 2>&-"]:
    file, where = fresh("closed")
    node = start(["node", file, "0", where], streams)
    good = serves(where, 0)
    size = os.path.getsize(where + "/lock-0")
    open(where + "/stop-0", "w").close()
    row("node with %s serves, and writes nothing into its lock file" % streams, (good, size, ended(node)[0]), (True, 0, 0))
for words in [["bound"], ["simulate", "-"]]:
    file, where = fresh("closed")
    shown = start([words[0], file, *words[1:]], ">&-")
    row("%s with >&- says that its output was refused, and why" % words[0], ended(shown)[::2],
        (1, "tokentree: standard output: Bad file descriptor (os error 9)\ntokentree: standard output cannot be written\n"))

# A full disk, and a reader that is gone.
file, where = fresh("output")
node = start(["node", file, "0", where])
serves(where, 0)
with open("/dev/full", "w") as full:
    shown = subprocess.run([program, "status", where], stdout=full, stderr=subprocess.PIPE, text=True)
row("status > /dev/full says that its output was refused, and why", (shown.returncode, shown.stderr),
    (1, "tokentree: standard output: No space left on device (os error 28)\ntokentree: standard output cannot be written\n"))
reader, writer = os.pipe()
os.close(reader)
shown = subprocess.run([program, "status", where], stdout=writer, stderr=subprocess.PIPE, text=True)
os.close(writer)
row("status whose reader is gone says nothing", (shown.returncode in (141, -signal.SIGPIPE), shown.stderr), (True, ""))
open(where + "/stop-0", "w").close()
ended(node)

# DIR is gone, or is another folder.
for what, do in [("removed", lambda where: shutil.rmtree(where)),
                 ("renamed", lambda where: os.rename(where, where + "-old")),
                 ("made again", lambda where: (os.rename(where, where + "-old"), os.mkdir(where)))]:
    file, where = fresh("moved-" + what.replace(" ", "-"))
    node = start(["node", file, "0", where])
    good = serves(where, 0)
    do(where)
    line = "tokentree: %s/lock-0: is another file now, or gone; the node ends, start it again\n" % where
    row("DIR %s: the node says so, and ends" % what, (good, *ended(node)[::2]), (True, 1, line))
file, where = fresh("twice")
old = start(["node", file, "0", where])
good = serves(where, 0)
os.rename(where, where + "-old")
new = start(["node", file, "0", where])
good = good and serves(where, 0)
gone = ended(old)[0]
row("DIR made again by another node 0: the old one ends, the new one serves", (good, gone, serves(where, 0)), (True, 1, True))
open(where + "/stop-0", "w").close()
row("the new one stops by its stop file", ended(new)[0], 0)

# Names of sockets.
file, where = fresh("names")
node = start(["node", file, "0", where])
good = serves(where, 0)
os.remove(where + "/desk-0.sock")
row("desk-0.sock removed: it comes again", (good, serves(where, 0)), (True, True))
os.remove(where + "/desk-0.sock")
other = socket.socket(socket.AF_UNIX)
other.bind(where + "/desk-0.sock")
row("desk-0.sock taken by another program: the node takes it back", serves(where, 0), True)
os.remove(where + "/desk-0.sock")
os.mkdir(where + "/desk-0.sock")
time.sleep(3)
os.rmdir(where + "/desk-0.sock")
good = serves(where, 0)
open(where + "/stop-0", "w").close()
line = "tokentree: %s/desk-0.sock: cannot be made again; remove what stands there: the node runs on, and tries again\n" % where
row("desk-0.sock a folder: one line, the node runs on, and takes it back", (good, *ended(node)[::2]), (True, 0, line))

# The stop file.
file, where = fresh("stop")
os.makedirs(where + "/stop-0")
node = start(["node", file, "0", where])
line = "tokentree: %s/stop-0: cannot be removed; remove it, and start the node again\n" % where
row("stop-0 a folder: status 1, one line", ended(node)[::2], (1, line))
up = start(["up", file, where])
left = "node 0 ended with status 1 for the third time at its start, and is left alone; mend what it says, and start up again\n"
lines = []
while left not in lines:
    line = up.stdout.readline()
    if not line:
        break
    lines.append(line)
starts = lines.count("node 0 start default Absent\n") + lines.count("node 0 start loaded\n")
row("stop-0 a folder under up: node 0 is left alone after three starts", starts, 3)
row("the other nodes run on", (serves(where, 1), serves(where, 2)), (True, True))
up.stdin.close()
row("up ends with its input", up.wait(timeout=PATIENCE), 0)

# up, and its nodes.
file, where = fresh("up")
up = start(["up", file, where])
good = all(serves(where, node) for node in range(3))
os.kill(children_of(up)[0], signal.SIGKILL)
row("a node of up killed: it is started again", (good, until(lambda: len(children_of(up)) == 3)), (True, True))
os.kill(up.pid, signal.SIGKILL)
up.wait()
row("up killed: its nodes end", until(lambda: not any(status_of(where, node) for node in range(3))), True)
up = start(["up", file, where])
good = all(serves(where, node) for node in range(3))
os.kill(children_of(up)[0], signal.SIGSTOP)
begin = time.time()
up.stdin.close()
seen = (good, up.wait(timeout=PATIENCE), 4 < time.time() - begin < 8)
row("up ends with its input, and kills a node that is stopped after 5 seconds", seen, (True, 0, True))
sys.exit(1 if wrong else 0)
PYTHON
