#!/usr/bin/env bash
# Kills each process of a `lock` at each step, by each signal, and tries what a user of flock, timeout or systemd-run
# would try. Every 20 milliseconds the command writes to a file that it runs; the next client, at another node, writes
# when it has the lock. A row is right if the status is that of docs/OPERATING.md, no command ran for more than 4
# seconds without the lock, and the next client had it alone. Prints each row, and what is wrong with it; status 1 if
# any is wrong.
#
#   bench/kills.sh               all rows, and 250 locks that are killed 0 to 20 ms after their start: some eight minutes
#   bench/kills.sh short         the same with 25 such locks
#
# The program is ./tokentree, or what TOKENTREE names. Needs python3, setsid and timeout.
set -euo pipefail
starts=250
[ "${1:-}" != short ] || starts=25
cd "$(dirname "$0")/.."
[ -n "${TOKENTREE:-}" ] || ./tokentree --build
program=$(realpath "${TOKENTREE:-crates/tokentree/out/tokentree}")
folder=$(mktemp -d)
trap 'rm -rf "$folder"' EXIT
python3 - "$program" "$folder" "$starts" << 'PYTHON'
import os, random, signal, socket, subprocess, sys, threading, time

program, folder, starts = sys.argv[1], sys.argv[2], int(sys.argv[3])
NETWORK, RUN = os.path.abspath("examples/ring-of-three.toml"), f"{folder}/run"
KILL, TERM, INT, STOP, CONT = signal.SIGKILL, signal.SIGTERM, signal.SIGINT, signal.SIGSTOP, signal.SIGCONT
GONE = 4.0

# What runs under the lock: it says so every 20 ms, as long as asked.
BEAT = 'end=$(($(date +%s%N) + $1)); while now=$(date +%s%N); [ $now -lt $end ]; do echo $now >>"$0"; sleep 0.02; done'
# The same, but it cleans up for a while when asked to end.
CLEAN = """trap stop=1 TERM INT
stop=; end=$(($(date +%s%N) + $1))
while now=$(date +%s%N); [ $now -lt $end ] && [ -z "$stop" ]; do echo $now >>"$0"; sleep 0.02; done
end=$(($(date +%s%N) + $2))
while now=$(date +%s%N); [ $now -lt $end ]; do echo $now >>"$0"; sleep 0.02; done"""

# A script's background job ignores both, and so would its children.
signal.signal(signal.SIGINT, signal.default_int_handler)
signal.signal(signal.SIGQUIT, signal.SIG_DFL)

wrong = 0
count = 0


def report(row, faults):
    global wrong
    wrong += bool(faults)
    print(f"{'WRONG' if faults else 'right'}  {row}" + "".join(f"\n       {fault}" for fault in faults), flush=True)


def fresh():
    global count
    count += 1
    return f"{folder}/beats-{count}"


def beats(path):
    try:
        with open(path) as file:
            return [int(line) / 1e9 for line in file if line.endswith("\n")]
    except FileNotFoundError:
        return []


def lock(words, command, **more):
    return subprocess.Popen([program, "lock", *words, "--", *command], stdin=subprocess.DEVNULL, **more)


def beating(path, seconds, words=(), script=BEAT, node="1", clean=0.0, **more):
    """A lock whose command beats for this many seconds."""
    nanos = [str(int(s * 1e9)) for s in (seconds, clean)]
    return lock([*words, RUN, node], ["sh", "-c", script, path, *nanos], **more)


def until(test, seconds=10.0):
    end = time.time() + seconds
    while time.time() < end:
        found = test()
        if found:
            return found
        time.sleep(0.005)
    return None


def children(process):
    try:
        with open(f"/proc/{process}/task/{process}/children") as file:
            return [int(word) for word in file.read().split()]
    except FileNotFoundError:
        return []


def words_of(process):
    try:
        with open(f"/proc/{process}/cmdline", "rb") as file:
            return file.read().split(b"\0")
    except FileNotFoundError:
        return []


def guard_of(first):
    """The guard of a lock, once it is that: it begins as an env that holds signals back."""
    return next((c for c in children(first.pid) if is_guard(words_of(c))), None)


def is_guard(words):
    return any(word.startswith(b"--guard") for word in words) and not words[0].endswith(b"/env")


def command_of(first):
    return next((c for c in children(first.pid) if words_of(c)[:1] == [b"sh"]), None)


def next_one():
    """When the next client, at another node, has the lock; none if not within 30 seconds."""
    path = fresh()
    status = lock(["--timeout", "30", RUN, "2"], ["sh", "-c", 'date +%s%N >"$0"', path]).wait()
    return beats(path)[0] if status == 0 else None


def judged(row, first, path, hit, status, ends_within=GONE):
    """What is wrong after a process of a lock was hit: the status, how long the command ran on, and who had the lock."""
    faults = []
    came = next_one()
    try:
        got = first.wait(timeout=30)
    except subprocess.TimeoutExpired:
        got = "none"
        first.kill()
    if got not in (status if isinstance(status, tuple) else (status,)):
        faults.append(f"status {got}, not {status}")
    time.sleep(0.1)
    seen = beats(path)
    if came is None:
        faults.append("the next client did not get the lock")
    elif seen and seen[-1] > came:
        faults.append(f"the command ran on for {seen[-1] - came:.2f} s after the next client had the lock")
    if ends_within is not None and seen and seen[-1] > hit + ends_within:
        faults.append(f"the command ran on for {seen[-1] - hit:.2f} s after the hit")
    report(row, faults)


def hit_with(process, signals):
    for number in signals:
        try:
            os.kill(process, number)
        except ProcessLookupError:
            pass
        if number == STOP:
            time.sleep(0.5)


def held(row, who, signals, status, seconds=1.5, words=(), ends_within=GONE, **more):
    """Hits a process of a lock while its command runs."""
    path = fresh()
    first = beating(path, seconds, words, **more)
    if not until(lambda: beats(path)) or not until(lambda: guard_of(first)):
        first.kill()
        return report(row, ["the command does not run, or has no guard"])
    process = {"first": lambda: first.pid, "guard": lambda: guard_of(first), "command": lambda: command_of(first)}[who]()
    hit_with(process, signals)
    judged(row, first, path, time.time(), status, ends_within)


def waited(row, signals, status, words=()):
    """Hits a lock that waits while another client holds the lock."""
    holder = beating(fresh(), 2.0, node="0")
    until(lambda: guard_of(holder))
    path = fresh()
    first = beating(path, 1.0, words)
    time.sleep(0.4)
    hit_with(first.pid, signals)
    holder.wait()
    judged(row, first, path, time.time(), status)
    if STOP not in signals and not words and beats(path):
        report(row + ", afterwards", ["its command ran"])


def waited_guard(row, signals, gone):
    """Hits the guard of a lock that waits while another client holds the lock: the command runs, under a guard that lives."""
    holder = beating(fresh(), 2.0, node="0")
    until(lambda: guard_of(holder))
    path = fresh()
    first = beating(path, 1.0)
    before = until(lambda: guard_of(first))
    hit_with(before, signals)
    holder.wait()
    until(lambda: beats(path))
    after = guard_of(first)
    judged(row, first, path, time.time(), 0)
    if not beats(path) or after is None or (after != before) != gone:
        report(row + ", afterwards", [f"guard {before} before the grant, {after} after it"])


def giving_back(row, signals, status):
    """Hits a lock whose command has ended, while it waits for the node's word, at a desk that follows a script."""
    place = f"{folder}/slow-{random.random()}"
    os.mkdir(place)
    desk = socket.socket(socket.AF_UNIX)
    desk.bind(f"{place}/desk-0.sock")
    desk.listen()
    first = lock([place, "0"], ["true"])
    stream, _ = desk.accept()
    stream.settimeout(10)
    faults, heard = [], b""
    stream.sendall(b"granted\n")
    while b"unlock\n" not in heard:
        heard += stream.recv(64)
    hit_with(first.pid, signals)
    try:
        stream.sendall(b"released\n")
        start = time.time()
        while stream.recv(64):
            pass
        if time.time() - start > GONE:
            faults.append("the connection stays open")
    except OSError as error:
        if not isinstance(error, (BrokenPipeError, ConnectionResetError)):
            faults.append(f"the desk: {error}")
    got = first.wait(timeout=20)
    if got != status:
        faults.append(f"status {got}, not {status}")
    report(row, faults)


def at_start(times):
    """Kills locks 0 to 20 ms after their start: no command runs on."""
    faults = []
    for place in range(times):
        path = fresh()
        first = beating(path, 20.0)
        time.sleep(random.random() * 0.02)
        first.kill()
        hit = time.time()
        first.wait()
        came = next_one()
        seen = beats(path)
        if came is None:
            faults.append(f"after kill {place} the next client did not get the lock")
        elif seen and (seen[-1] > came or seen[-1] > hit + GONE):
            faults.append(f"after kill {place} the command ran on: {seen[-1] - hit:.2f} s, next after {came - hit:.2f} s")
    time.sleep(1)
    report(f"first process, SIGKILL 0 to 20 ms after its start, {times} times", faults)


def group(row, number, status, words=(), script=CLEAN, clean=1.5):
    """A signal to the whole group, like Ctrl-C on a terminal: the command cleans up, and has the lock until it is done."""
    path = fresh()
    first = beating(path, 20.0, words, script, clean=clean, start_new_session=True)
    until(lambda: beats(path) and guard_of(first))
    os.killpg(first.pid, number)
    hit = time.time()
    faults = []
    judged(row, first, path, hit, status, clean + 1.0)
    cleaned = beats(path)[-1] - hit
    if cleaned < clean - 0.5:
        report(row + ", the clean-up", [f"took {cleaned:.2f} s"])


def timed_out(row):
    """timeout(1) around a lock: its signal goes to the whole group too."""
    path = fresh()
    nanos = [str(int(s * 1e9)) for s in (20.0, 1.5)]
    words = ["timeout", "0.7", program, "lock", RUN, "1", "--", "sh", "-c", CLEAN, path, *nanos]
    first = subprocess.Popen(words, stdin=subprocess.DEVNULL)
    until(lambda: beats(path))
    first.wait()
    judged(row, first, path, time.time(), 124, 3.0)


def shows(row, words, status, output=None, said=None, within=None, **more):
    """What a command under the lock shows its user."""
    start = time.time()
    done = subprocess.run([program, "lock", *words], capture_output=True, timeout=30, **more)
    faults = []
    if done.returncode != status:
        faults.append(f"status {done.returncode}, not {status}: {done.stderr}")
    if output is not None and done.stdout != output:
        faults.append(f"printed {done.stdout}, not {output}")
    if said is not None and done.stderr != said:
        faults.append(f"said {done.stderr}, not {said}")
    took = time.time() - start
    if within is not None and not within[0] <= took <= within[1]:
        faults.append(f"took {took:.2f} s, not {within[0]} to {within[1]}")
    report(row, faults)


def at_once():
    """Ten commands at once at one node; each adds one to a number ten times."""
    number = fresh()
    with open(number, "w") as file:
        file.write("0\n")
    add = 'read -r n <"$0"; echo $((n + 1)) >"$0"'
    loop = f'for i in 1 2 3 4 5 6 7 8 9 10; do "{program}" lock "{RUN}" 1 -- sh -c \'{add}\' "$0" || exit 1; done'
    running = [subprocess.Popen(["sh", "-c", loop, number]) for _ in range(10)]
    faults = [f"status {p.wait()}" for p in running if p.wait() != 0]
    with open(number) as file:
        total = int(file.read())
    if total != 100:
        faults.append(f"the sum is {total}, not 100")
    report("ten commands at once at one node, ten times each", faults)


def crowd():
    """A node with 128 clients closes one more; that one asks again until there is room."""
    full = []
    for _ in range(128):
        made = socket.socket(socket.AF_UNIX)
        made.connect(f"{RUN}/desk-1.sock")
        full.append(made)
    time.sleep(0.3)
    shows("a node with 128 clients, and no room in time", ["--timeout", "1", RUN, "1", "--", "true"], 124)
    status = subprocess.run([program, "status", RUN, "1"], stdout=subprocess.PIPE, text=True)
    line = status.stdout.splitlines()[0]
    known = status.returncode == 0 and line.startswith("node 1 distance ")
    report("a node with 128 clients, asked for its status", [] if known else [f"status {status.returncode}: {line}"])
    waiting = lock([RUN, "1"], ["true"])
    time.sleep(0.5)
    for made in full:
        made.close()
    got = waiting.wait(timeout=10)
    report("a node with 128 clients, and room later", [] if got == 0 else [f"status {got}"])


def network():
    made = subprocess.Popen([program, "up", NETWORK, RUN], stdin=subprocess.PIPE, stdout=subprocess.PIPE)
    ready = 0
    while ready < 3:
        ready += made.stdout.readline().endswith(b"ready\n")
    threading.Thread(target=made.stdout.read, daemon=True).start()
    # Nodes may still end a loan in their first sweeps after a start.
    time.sleep(1)
    return made


def node_process(up, node):
    return next((c for c in children(up.pid) if str(node).encode() in words_of(c)[2:] + [b""]), None)


def runs(process):
    """Whether a process runs. One that has ended, but was not waited for, does not."""
    try:
        with open(f"/proc/{process}/stat") as file:
            return file.read().rsplit(")", 1)[1].split()[0] not in "ZX"
    except (FileNotFoundError, ProcessLookupError):
        return False


def up_killed(up):
    """Kills `up` while a command runs under the lock. Its nodes end, the lock is lost, and a second `up` serves."""
    path = fresh()
    first = beating(path, 20.0)
    until(lambda: beats(path))
    nodes = children(up.pid)
    up.kill()
    hit = time.time()
    up.wait()
    got = first.wait(timeout=20)
    faults = [] if got == 122 else [f"status {got}"]
    if beats(path)[-1] > hit + GONE:
        faults.append("the command ran on")
    if not until(lambda: not any(runs(node) for node in nodes)):
        faults.append("a node runs on")
    report("up, holding, SIGKILL", faults)
    again = network()
    shows("a lock of the next network in the same folder", ["--timeout", "10", RUN, "1", "--", "true"], 0)
    return again


up = network()
names = {KILL: "SIGKILL", TERM: "SIGTERM", INT: "SIGINT", STOP: "SIGSTOP, SIGCONT"}
try:
    at_start(starts)
    for number in (KILL, TERM, INT, STOP):
        signals = [STOP, CONT] if number == STOP else [number]
        usual = number == STOP
        name = names[number]
        # A process that a signal ended has a negative number here, and 128 plus the number in a shell.
        waited(f"first process, waiting, {name}", signals, 0 if usual else -number)
        waited(f"first process, waiting, --timeout 10, {name}", signals, 0 if usual else -number, ["--timeout", "10"])
        waited_guard(f"guard, waiting, {name}", signals, number == KILL)
        held(f"first process, holding, {name}", "first", signals, 0 if usual else -number, 1.5 if usual else 20)
        held(f"guard, holding, {name}", "guard", signals, 122 if number == KILL else 0, 20 if number == KILL else 1.5)
        held(f"command, holding, {name}", "command", signals, 0 if usual else 128 + number, 1.5 if usual else 20)
        held(f"first process, holding, --keep, {name}", "first", signals, 0 if usual else -number, 2.0, ["--keep"], None)
        held(f"guard, holding, --keep, {name}", "guard", signals, 0, 2.0, ["--keep"], None)
        giving_back(f"first process, giving back, {name}", signals, 0 if usual else -number)
    group("the whole group, SIGINT, the command cleans up", INT, -INT)
    group("the whole group, SIGTERM, the command cleans up", TERM, -TERM)
    timed_out("timeout 0.7 lock, the command cleans up")
    shows("standard input and output", [RUN, "1", "--", "cat"], 0, b"some words\n", b"", input=b"some words\n")
    shows("a status over 128", [RUN, "1", "--", "sh", "-c", "exit 200"], 200, b"", b"")
    shows("a signal that ends the command", [RUN, "1", "--", "sh", "-c", "kill -QUIT $$"], 131, b"", b"")
    shows("no such command", [RUN, "1", "--", "no-such-command"], 127, b"", b"tokentree: there is no command no-such-command\n")
    shows("a command in the background", [RUN, "1", "--", "sh", "-c", "sleep 2 >&- 2>&- &"], 0, within=(0, 1.5))
    shows("the same with --wait-children", ["--wait-children", RUN, "1", "--", "sh", "-c", "sleep 2 >&- 2>&- &"], 0, within=(1.9, 4))
    absent = f"tokentree: nobody listens at {RUN}/desk-7.sock: start node 7, if the network has it\n".encode()
    shows("an absent node", [RUN, "7", "--", "true"], 125, b"", absent)
    shows("DIR by a relative path", ["run", "1", "--", "sh", "-c", "cd / && pwd"], 0, b"/\n", b"", cwd=folder)
    # Shells differ in the status of a failed write; it must be the command's own.
    full_disk = ["sh", "-c", "echo x >/dev/full"]
    own_status = subprocess.run(full_disk, stderr=subprocess.DEVNULL).returncode
    shows("a full disk", [RUN, "1", "--", *full_disk], own_status)
    shows("the mark by which a command is found", [RUN, "1", "--", "sh", "-c", 'echo "${TOKENTREE_LOCK:+marked}"'], 0, b"marked\n")
    odd = dict(os.environb)
    odd[b"ODD"] = b"\xff\xfe=\x01"
    shows("odd bytes in the environment", [RUN, "1", "--", "sh", "-c", 'printf %s "$ODD"'], 0, b"\xff\xfe=\x01", b"", env=odd)
    closed = subprocess.run(["sh", "-c", '"$0" lock "$1" 1 -- true <&- >&- 2>&-', program, RUN]).returncode
    report("standard streams closed", [] if closed == 0 else [f"status {closed}"])
    at_once()
    crowd()
    # A node of the three, and `up` itself, which starts it again.
    path = fresh()
    first = beating(path, 20.0)
    until(lambda: beats(path))
    node = node_process(up, 1)
    if node is not None:
        os.kill(node, KILL)
        hit = time.time()
        got = first.wait(timeout=20)
        last = beats(path)[-1]
        report("the node, holding, SIGKILL", ([] if got == 122 else [f"status {got}"]) + ([] if last < hit + GONE else ["ran on"]))
        time.sleep(2)
    up = up_killed(up)
finally:
    up.stdin.close()
    up.wait(timeout=20)
print(f"{wrong} wrong" if wrong else "all right")
sys.exit(1 if wrong else 0)
PYTHON
