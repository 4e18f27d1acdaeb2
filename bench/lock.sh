#!/usr/bin/env bash
# Measures nodes that run as processes, on rings of three and of eight (or of the given numbers of nodes): the load of
# an idle node, how long a client that asks now and then waits for the lock at the root and far from it, how many grants
# a second there are if a client at each node asks for the lock all the time, and a node's memory and descriptors. For
# comparison, also what a command costs under the lock and under flock(1), and a loop that locks one file. Needs python3
# and flock; takes half a minute for each ring. The program is ./tokentree, or what TOKENTREE names.
#
# bench/lock.sh --record [NODES..] compares nodes that keep a record with nodes that keep none instead. In each of 32
# rounds two new rings of each kind run at the same time, and their clients ask in turn, each time in another order, 300
# times in each ring at each place. So 192 of 19,200 waits lie above each 99th percentile, in 64 rings of each kind. Two
# rings of one kind differ by chance, which is why there are so many; how much they differ is shown beside what records
# change. Idle loads and grants a second are measured in the first eight rounds, which makes sixteen values of each kind,
# of which the median is shown. Takes twelve minutes for each size.
#
# On a virtual machine a processor that sleeps wakes late, and the host takes processors away: the slowest hundredth of
# waits shows that, and not the nodes. So cyclictest runs beside the waits, if it is there (in the package rt-tests) and
# may have a real-time priority (as root). Its threads wake each processor ten thousand times a second, and it says how
# late they come. A round in which more than three thousandths of the processors' time was lost so is measured again; how
# many were is shown at the end.
set -euo pipefail
compare=
[ "${1:-}" != --record ] || { compare=record; shift; }
[ $# -gt 0 ] || set -- 3 8
cd "$(dirname "$0")/.."
[ -n "${TOKENTREE:-}" ] || ./tokentree --build
program=$(realpath "${TOKENTREE:-crates/tokentree/out/tokentree}")
folder=$(mktemp -d)
trap 'rm -rf "$folder"' EXIT
if [ "$compare" ] && ! { command -v cyclictest > /dev/null && [ "$(id -u)" = 0 ]; }; then
    echo "bench/lock.sh: no cyclictest (package rt-tests) or not root: the slowest waits may be the machine's" >&2
    compare=record-alone
fi
python3 - "$program" "$folder" "$compare" "$@" <<'PYTHON'
import fcntl, multiprocessing, os, random, shutil, signal, socket, subprocess, sys, time

program, folder, compare = sys.argv[1:4]
sizes = [int(n) for n in sys.argv[4:]]
TICKS = os.sysconf("SC_CLK_TCK")
ROUNDS = 32
WAITS = 300
# In so many rounds, the first ones, idle loads and grants are measured too.
FULL_ROUNDS = 8
# A thread that comes later than this, in microseconds, had no processor; latencies above the second number count as that.
LATE, LATEST = 150, 20_000
# At most this share of the processors' time may be lost in a round, and at most so many rounds are measured.
LOST, MOST_ROUNDS = 0.003, 4 * ROUNDS
NAMES = ["plain", "recorded", "plain-2", "recorded-2"]


class Client:
    """A client of one node's desk."""

    def __init__(self, run, node):
        self.socket = socket.socket(socket.AF_UNIX)
        self.socket.settimeout(10)
        self.socket.connect(f"{run}/desk-{node}.sock")
        self.rest = b""

    def line(self):
        while b"\n" not in self.rest:
            self.rest += self.socket.recv(512)
        line, self.rest = self.rest.split(b"\n", 1)
        return line

    def ask(self, words, answer=None):
        self.socket.sendall(words + b"\n")
        line = self.line()
        assert answer is None or line == answer, line
        return line

    def cycle(self):
        start = time.perf_counter()
        self.ask(b"lock", b"granted")
        waited = time.perf_counter() - start
        self.ask(b"unlock", b"released")
        return waited


def used(process):
    """The processor seconds that a process has used."""
    words = open(f"/proc/{process.pid}/stat").read().rsplit(")", 1)[1].split()
    return (int(words[11]) + int(words[12])) / TICKS


def memory(process):
    """The kilobytes that a process has."""
    return next(int(l.split()[1]) for l in open(f"/proc/{process.pid}/status") if l.startswith("VmRSS"))


def descriptors(process):
    return len(os.listdir(f"/proc/{process.pid}/fd"))


def grants(run, node, seconds, out):
    """How often a client that asks all the time gets the lock."""
    client, count, end = Client(run, node), 0, time.perf_counter() + seconds
    while time.perf_counter() < end:
        client.cycle()
        count += 1
    out.put(count)


def middle_and_most(waits):
    """The median of waits and their 99th percentile."""
    waits = sorted(waits)
    return waits[len(waits) // 2], waits[len(waits) * 99 // 100]


def spread(run, node, times):
    """The median of all waits and their 99th percentile, in milliseconds."""
    client, waits = Client(run, node), []
    for _ in range(times):
        time.sleep(0.005)
        waits.append(client.cycle() * 1000)
    return middle_and_most(waits)


def start(nodes, name, *words):
    """Starts a ring of nodes. Returns its folder and its processes."""
    network, run = f"{folder}/ring-{nodes}.toml", f"{folder}/{name}-{nodes}"
    edges = [[i, (i + 1) % nodes] for i in range(nodes)]
    # Nodes of another ring may be reading it.
    if not os.path.exists(network):
        with open(network, "w") as file:
            file.write(f"nodes = {nodes}\nroot = 0\ncapacity = 64\nlease = 0\nedges = {edges}\n")
    running = [
        subprocess.Popen([program, "node", *words, network, str(i), run], stdout=subprocess.PIPE) for i in range(nodes)
    ]
    for process in running:
        assert process.stdout.readline().startswith(b"start") and process.stdout.readline() == b"ready\n"
    return run, running


def settle(runs, nodes):
    """Waits until the farthest node of each ring has its distance, and a second more."""
    far = nodes // 2
    for run in runs:
        while b"distance %d " % far not in Client(run, far).ask(b"status"):
            time.sleep(0.01)
    time.sleep(1)


def idle_load(running):
    """The percentage of a processor that a node uses while no client is there."""
    before = [used(process) for process in running]
    time.sleep(5)
    return sum(used(process) - b for process, b in zip(running, before)) / 5 / len(running) * 100


def all_grants(run, nodes):
    """The grants a second if a client at each node asks all the time."""
    out = multiprocessing.Queue()
    clients = [multiprocessing.Process(target=grants, args=(run, i, 5, out)) for i in range(nodes)]
    for client in clients:
        client.start()
    rate = sum(out.get() for _ in clients) / 5
    for client in clients:
        client.join()
    return rate


def stop(run, running):
    """Stops a ring. Returns the statuses of its processes."""
    for i in range(len(running)):
        open(f"{run}/stop-{i}", "w").close()
    return [process.wait(timeout=10) for process in running]


def ring(nodes):
    run, running = start(nodes, "run")
    settle([run], nodes)
    idle = idle_load(running)
    near_half, near_most = spread(run, 0, 500)
    far_half, far_most = spread(run, nodes // 2, 500)
    first = memory(running[0]), descriptors(running[0])
    rate = all_grants(run, nodes)
    end = memory(running[0]), descriptors(running[0])
    statuses = stop(run, running)
    print(
        f"ring of {nodes:2}  idle {idle:5.1f} %  lock at the root {near_half:.2f} and {near_most:.2f} ms"
        f"  far from it {far_half:.2f} and {far_most:.2f} ms  all {rate:6.0f} grants a second"
        f"  memory {first[0]} to {end[0]} kB  descriptors {first[1]} to {end[1]}  statuses {statuses}",
        flush=True,
    )


def in_turn(runs, node, times):
    """The waits in each of these folders, in milliseconds, by clients that ask in turn, each time in another order."""
    clients, waits, order = [Client(run, node) for run in runs], [[] for _ in runs], list(range(len(runs)))
    for _ in range(times):
        random.shuffle(order)
        for ring in order:
            time.sleep(0.005)
            waits[ring].append(clients[ring].cycle() * 1000)
    return waits


def recorded(run, nodes):
    """The bytes of the records of a ring."""
    names = [f"{run}/record-{i}.{side}" for i in range(nodes) for side in (0, 1)]
    return sum(os.path.getsize(name) for name in names if os.path.exists(name))


def idle_loads(rings):
    """The percentage of a processor that a node of each ring uses while no client is there, measured at the same time."""
    before = [[used(process) for process in running] for _, running in rings]
    time.sleep(5)
    return [
        [sum(used(process) - b for process, b in zip(running, own)) / 5 / len(running) * 100]
        for (_, running), own in zip(rings, before)
    ]


def of_kind(values, kind):
    """What was measured of the two rings without a record (0), or with one (1), together."""
    return values[kind] + values[kind + 2]


def more(values, measure):
    """By how many percent records change a measure, and by how many the second ring without one is away from the first."""
    by_record = measure(of_kind(values, 1)) / measure(of_kind(values, 0)) - 1
    by_chance = measure(values[2]) / measure(values[0]) - 1
    return f"{by_record * 100:+.0f} % ({by_chance * 100:+.0f} %)"


def half(values):
    return middle_and_most(values)[0]


def most(values):
    return middle_and_most(values)[1]


def lost_share(report, seconds):
    """The share of the processors' time that was lost, by what cyclictest reports: a line for each latency, with how often
    each thread had it, and one with how often each was above the latest."""
    lost, threads = 0, 0
    for words in map(str.split, report.splitlines()):
        if words[:3] == ["#", "Histogram", "Overflows:"]:
            threads = len(words) - 3
            lost += LATEST * sum(map(int, words[3:]))
        elif words and words[0].isdigit() and int(words[0]) > LATE:
            lost += int(words[0]) * sum(map(int, words[1:]))
    return lost / 1e6 / seconds / threads


def waits_awake(runs, nodes):
    """The waits in each ring at the root and far from it, and which share of the processors' time was lost meanwhile."""
    if compare == "record-alone":
        return *(in_turn(runs, node, WAITS) for node in (0, nodes // 2)), 0
    # It ends by itself after ten minutes, in case this script is killed.
    words = ["cyclictest", "-q", "-S", "-p", "99", "-i", "100", "-h", str(LATEST), "-D", "10m"]
    watch = subprocess.Popen(words, stdout=subprocess.PIPE, stderr=subprocess.DEVNULL, text=True)
    start = time.perf_counter()
    near, far = (in_turn(runs, node, WAITS) for node in (0, nodes // 2))
    seconds = time.perf_counter() - start
    watch.send_signal(signal.SIGINT)
    report = watch.communicate()[0]
    assert watch.returncode == 0 and "Histogram Overflows" in report, "cyclictest failed"
    return near, far, lost_share(report, seconds)


def round_of_rings(nodes, place):
    """What a round measures, by the four rings: waits at the root and far from it, idle loads, rates, and the rest; and
    which share of the processors' time was lost in the waits."""
    rings = [start(nodes, f"{name}-{place}", *["--record"] * name.startswith("recorded")) for name in NAMES]
    runs = [run for run, _ in rings]
    settle(runs, nodes)
    near, far, lost = waits_awake(runs, nodes)
    idle = rates = sizes = [[] for _ in rings]
    if place < FULL_ROUNDS and lost <= LOST:
        idle, rates = idle_loads(rings), [[all_grants(run, nodes)] for run in runs]
        sizes = [[memory(running[0])] for _, running in rings]
    assert all(stop(run, running) == [0] * nodes for run, running in rings)
    records = [[recorded(run, nodes)] * (place < FULL_ROUNDS) for run in runs]
    for run in runs:
        shutil.rmtree(run)
    return (near, far, idle, rates, sizes, records), lost


def quiet_rounds(nodes):
    """So many rounds in which hardly any time was lost; says how many others there were."""
    rounds, again = [], 0
    while len(rounds) < ROUNDS:
        measured, lost = round_of_rings(nodes, len(rounds))
        if lost <= LOST:
            rounds.append(measured)
            continue
        again += 1
        if len(rounds) + again >= MOST_ROUNDS:
            sys.exit(f"bench/lock.sh: only {len(rounds)} of {MOST_ROUNDS} rounds were quiet: the machine is too busy")
    print(f"ring of {nodes:2}  {again} of {len(rounds) + again} rounds were measured again", flush=True)
    return rounds


def side_by_side(nodes):
    """Compares rings of nodes that keep no record with rings of nodes that keep one."""
    rounds = quiet_rounds(nodes)
    near, far, idle, rates, sizes, records = ([sum(own, []) for own in zip(*kind)] for kind in zip(*rounds))
    for kind, name in enumerate(["no record", "records"]):
        print(
            f"ring of {nodes:2}  {name:9}  idle {half(of_kind(idle, kind)):.1f} %"
            f"  lock at the root {half(of_kind(near, kind)):.2f} and {most(of_kind(near, kind)):.2f} ms"
            f"  far from it {half(of_kind(far, kind)):.2f} and {most(of_kind(far, kind)):.2f} ms"
            f"  all {half(of_kind(rates, kind)):6.0f} grants a second  memory {half(of_kind(sizes, kind))} kB"
            f"  records {half(of_kind(records, kind))} bytes",
            flush=True,
        )
    print(
        f"ring of {nodes:2}  by records (by chance): at the root {more(near, half)} and {more(near, most)},"
        f" far from it {more(far, half)} and {more(far, most)}, grants {more(rates, half)}",
        flush=True,
    )


def locked_file(seconds):
    """How often a second one process locks and unlocks a file that nobody else uses."""
    count, end = 0, time.perf_counter() + seconds
    with open(f"{folder}/locked", "w") as file:
        while time.perf_counter() < end:
            fcntl.flock(file, fcntl.LOCK_EX)
            fcntl.flock(file, fcntl.LOCK_UN)
            count += 1
    return count / seconds


def command_time(words, times):
    """The milliseconds of one command, by `times` that run one after the other."""
    start = time.perf_counter()
    for _ in range(times):
        subprocess.run(words, check=True, stdin=subprocess.DEVNULL)
    return (time.perf_counter() - start) / times * 1000


def commands(times):
    """What it costs to run a command under the lock, and under flock(1) on a file."""
    run, locked = f"{folder}/run-commands", f"{folder}/locked"
    network = "examples/ring-of-three.toml"
    up = subprocess.Popen([program, "up", network, run], stdin=subprocess.PIPE, stdout=subprocess.PIPE)
    ready = 0
    while ready < 3:
        ready += up.stdout.readline().endswith(b"ready\n")
    # Nodes may still end a loan in their first sweeps after a start.
    time.sleep(1)
    by_lock = command_time([program, "lock", run, "1", "--", "true"], times)
    up.stdin.close()
    assert up.wait(timeout=10) == 0
    by_flock = command_time(["flock", locked, "true"], times)
    alone = command_time(["true"], times)
    print(f"true under lock {by_lock:.2f} ms, under flock {by_flock:.2f} ms, alone {alone:.2f} ms", flush=True)


if compare:
    for nodes in sizes:
        side_by_side(nodes)
    sys.exit()
for nodes in sizes:
    ring(nodes)
commands(1000)
print(f"flock on a file, one process: {locked_file(2):.0f} a second")
PYTHON
