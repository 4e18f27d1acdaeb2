#!/usr/bin/env bash
# Shows the lock over a model of three machines: three network namespaces, joined in pairs by virtual Ethernet, each
# with a node and with the commands of its links' units (packaging/tokentree-link@.service) in its own folder. Prints
# three tables: how quick the lock is with delays on the lines; what faults of lines and machines do while two clients
# at each node add to a number that nothing else guards; and what strangers at the open port reach. Frames under way are
# counted all the time, and at each stop of a reader.
#
#   bench/machines.sh              delays of 0, 1, 10 and 50 ms, each fault 20 times, lines cut for 60 s: an hour
#   bench/machines.sh short        delays of 0 and 10 ms, each fault twice, lines cut for 5 s: some six minutes
#   bench/machines.sh [short] PART one part alone: speed, faults or strangers
#   bench/machines.sh faults N     each fault N times
#
# Status 1 if a sum was wrong after a recovery, or at any time after a fault that damages nothing; if a node did not
# grant the lock again within 30 seconds; if more frames were under way than the capacity allows; or if a stranger
# reached a node.
#
# A relay of this bench makes a line's delay: it holds packets back. The program is ./tokentree, or what TOKENTREE
# names. All of it runs in namespaces of its own, and ends with it, even if it is killed. Needs root, unshare, setpriv,
# ip, ss, python3, socat, openssl.
set -euo pipefail
cd "$(dirname "$0")/.."
if [ "${1:-}" != --inside ]; then
    [ -n "${TOKENTREE:-}" ] || ./tokentree --build
    program=$(realpath "${TOKENTREE:-crates/tokentree/out/tokentree}")
    folder=$(mktemp -d)
    trap 'rm -rf "$folder"' EXIT
    trap 'kill -KILL $!; wait; exit 130' HUP INT TERM
    # A process that is killed here takes its children along.
    setpriv --pdeathsig KILL unshare --mount --net --pid --fork --kill-child --mount-proc \
        "$0" --inside "$program" "$folder" "$@" &
    status=0
    wait $! || status=$?
    exit $status
fi
# From here on in namespaces of its own: names, sockets and processes end with this script.
mount -t tmpfs tmpfs /run
folder=$3
cat > "$folder/machines.py" << 'PYTHON'
import array, collections, fcntl, glob, multiprocessing, os, random, re, select, signal, socket, ssl, statistics, struct
import subprocess, sys, threading, time

FOLDER = os.path.dirname(os.path.abspath(__file__))
PACKAGING = f"{os.getcwd()}/packaging"
NAMES = "abc"
EDGES = [(0, 1), (1, 2), (0, 2)]
CAPACITY = 256
# Frames that a node itself may hold: lines that it has read and not taken, one that waits, and those of an older
# connection.
IN_NODE = 30
# The bytes of a frame's line, and of a TLS record with one.
LINE, RECORD = 22, 44
SECOND = 1_000_000_000


def run(*words):
    return subprocess.run(words, check=True, stdout=subprocess.PIPE, stderr=subprocess.PIPE, text=True).stdout


# --- A relay that holds packets back ---------------------------------------------------------------------------------


def end_of_line(name):
    made = socket.socket(socket.AF_PACKET, socket.SOCK_RAW, socket.htons(3))
    # PACKET_IGNORE_OUTGOING: what the relay sends does not come back to it.
    made.setsockopt(263, 23, 1)
    made.bind((name, 0))
    made.setblocking(False)
    return made


def relay(one, other, delay):
    """Hands each packet of one end to the other, after a delay in seconds."""
    # A line should not wait for a processor.
    os.nice(-10)
    ends = end_of_line(one), end_of_line(other)
    others = {ends[0]: ends[1], ends[1]: ends[0]}
    packets = collections.deque()
    while True:
        while packets and packets[0][0] <= time.monotonic():
            _, end, packet = packets.popleft()
            try:
                end.send(packet)
            except OSError:
                pass  # the line is cut
        rest = max(0, packets[0][0] - time.monotonic()) if packets else None
        for end in select.select(ends, [], [], rest)[0]:
            try:
                packets.append((time.monotonic() + delay, others[end], end.recv(65536)))
            except OSError:
                pass  # the line is cut


def whole_packets(name):
    """Makes the system compute checksums, since no hardware does (ETHTOOL_STXCSUM)."""
    value = array.array("I", [0x17, 0])
    with socket.socket(socket.AF_INET, socket.SOCK_DGRAM) as any_socket:
        fcntl.ioctl(any_socket, 0x8946, struct.pack("16sP16x", name.encode(), value.buffer_info()[0]))


# --- Clients ---------------------------------------------------------------------------------------------------------

# What `lock` runs: it raises the number by one, in one write that cuts nothing off, and the log says when and to what.
ADD = """
start=$(date +%s%N)
read -r number < "$0"
number=$(expr "$number" + 1)
printf '%020d\\n' "$number" 1<> "$0"
echo "$start $(date +%s%N) $number" >> "$1"
"""


class Client:
    """A client of one node's desk."""

    def __init__(self, desk):
        self.socket = socket.socket(socket.AF_UNIX)
        self.socket.settimeout(60)
        self.socket.connect(desk)

    def ask(self, words, answer):
        self.socket.sendall(words)
        got = self.socket.recv(512)
        if got != answer:
            raise OSError(f"{got} is no {answer}")

    def lock(self):
        self.ask(b"lock\n", b"granted\n")

    def unlock(self):
        self.ask(b"unlock\n", b"released\n")


def add_by_socket(nodes, node):
    """A client that asks for the lock all the time, and connects again if its node is gone."""
    counter = os.open(f"{FOLDER}/counter", os.O_RDWR)
    log = os.open(f"{FOLDER}/log-socket-{node}", os.O_WRONLY | os.O_CREAT | os.O_APPEND)
    while True:
        try:
            client = Client(f"{nodes}/desk-{node}.sock")
            while True:
                client.lock()
                start = time.time_ns()
                number = int(os.pread(counter, 20, 0)) + 1
                # Time enough for another add in between, if that is possible.
                time.sleep(random.random() / 1000)
                os.pwrite(counter, b"%020d\n" % number, 0)
                os.write(log, b"%d %d %d\n" % (start, time.time_ns(), number))
                client.unlock()
        except OSError:
            time.sleep(0.01)


def add_by_command(program, nodes, node):
    """The same by `lock`, with a rest between."""
    words = [program, "lock", nodes, node, "--", "sh", "-c", ADD, f"{FOLDER}/counter", f"{FOLDER}/log-command-{node}"]
    while True:
        subprocess.run(words, stderr=subprocess.DEVNULL)
        time.sleep(0.1)


class Adds:
    """What the clients' logs say."""

    def __init__(self):
        self.read, self.unsaid = {}, []

    def new(self):
        """The adds since the last call: when the loan began, when the number was written, which, and at which node.

        The logs are read one after the other while adds go on, so those of the last fifth of a second wait for the
        next call: else an add could be listed without the add before it, which is in a log that was read earlier.
        """
        until = time.time_ns() - SECOND // 5
        for path in glob.glob(f"{FOLDER}/log-*"):
            with open(path) as log:
                log.seek(self.read.get(path, 0))
                text = log.read()
            whole = text[: text.rfind("\n") + 1]
            self.read[path] = self.read.get(path, 0) + len(whole)
            node = int(path.rsplit("-", 1)[1])
            self.unsaid += [(*map(int, line.split()), node) for line in whole.splitlines()]
        said = [add for add in self.unsaid if add[1] < until]
        self.unsaid = [add for add in self.unsaid if add[1] >= until]
        return sorted(said, key=lambda add: add[1])


def wrong_adds(adds):
    return [add for before, add in zip(adds, adds[1:]) if add[2] != before[2] + 1]


# --- Machines and lines ----------------------------------------------------------------------------------------------


class Line:
    """Virtual Ethernet between two machines. Its ends meet in the namespace `wires`, in a bridge or in a relay."""

    def __init__(self, number, edge, delay):
        self.ends = [f"w{number}{NAMES[node]}" for node in edge]
        self.relay = None
        for node, end in zip(edge, self.ends):
            self.lay(number, node, end)
        if delay == 0:
            run("ip", "-n", "wires", "link", "add", f"bridge{number}", "type", "bridge")
            for end in self.ends:
                run("ip", "-n", "wires", "link", "set", end, "master", f"bridge{number}")
            run("ip", "-n", "wires", "link", "set", f"bridge{number}", "up")
        else:
            words = ["ip", "netns", "exec", "wires", sys.executable, __file__, "relay", *self.ends, str(delay / 1000)]
            self.relay = subprocess.Popen(words)

    def lay(self, number, node, end):
        name, card = NAMES[node], f"eth{number}"
        run("ip", "link", "add", card, "netns", name, "type", "veth", "peer", "name", end, "netns", "wires")
        run("ip", "netns", "exec", name, sys.executable, __file__, "whole_packets", card)
        run("ip", "-n", name, "addr", "add", f"10.77.{number}.{node + 1}/24", "dev", card)
        run("ip", "-n", name, "link", "set", card, "up")
        run("ip", "-n", "wires", "link", "set", end, "up")

    def cut(self):
        run("ip", "-n", "wires", "link", "set", self.ends[0], "down")

    def mend(self):
        run("ip", "-n", "wires", "link", "set", self.ends[0], "up")

    def end(self):
        if self.relay:
            self.relay.kill()
            self.relay.wait()


def unit_setting(name):
    with open(f"{PACKAGING}/tokentree-link@.service") as file:
        return re.search(rf"^{name}=(.*)$", file.read(), re.MULTILINE).group(1)


class Unit:
    """A link's unit: its command, which is started again whenever it ends, as systemd does."""

    REST = float(unit_setting("RestartSec").removesuffix("ms")) / 1000
    COMMAND = unit_setting("ExecStart").replace("/usr/libexec/tokentree", PACKAGING)

    def __init__(self, machine, instance):
        self.machine, self.instance, self.ends, self.starts = machine, instance, False, 0
        self.thread = threading.Thread(target=self.keep, daemon=True)
        self.thread.start()

    def keep(self):
        environment = {
            "CREDENTIALS_DIRECTORY": f"{self.machine.folder}/tls",
            "TOKENTREE_NODES": self.machine.nodes,
            "TOKENTREE_LINKS": f"{self.machine.folder}/links",
        }
        while not self.ends:
            words = self.COMMAND.replace("%i", self.instance).split()
            self.process = self.machine.start(words, environment, stderr=subprocess.DEVNULL)
            self.starts += 1
            self.process.wait()
            # systemd ends what the command has left.
            self.signal(signal.SIGKILL)
            time.sleep(self.REST)

    def signal(self, number):
        try:
            os.killpg(self.process.pid, number)
        except ProcessLookupError:
            pass

    def end(self):
        self.ends = True
        self.signal(signal.SIGKILL)
        self.thread.join()


class Machine:
    """A network namespace with a node and its links, in its own folder."""

    def __init__(self, node):
        self.node, self.name = node, NAMES[node]
        self.folder = f"{FOLDER}/{self.name}"
        self.nodes, self.process, self.units = f"{self.folder}/nodes", None, []
        for part in ("", "/nodes", "/links", "/tls"):
            os.mkdir(self.folder + part, 0o700)
        run("ip", "netns", "add", self.name)
        run("ip", "-n", self.name, "link", "set", "lo", "up")
        edges = [(number, edge) for number, edge in enumerate(EDGES) if node in edge]
        self.peers = [edge[0] + edge[1] - node for _, edge in edges]
        with open(f"{self.folder}/hosts", "w") as file:
            file.write("127.0.0.1 localhost\n")
            file.writelines(f"10.77.{n}.{p + 1} {NAMES[p]}\n" for (n, _), p in zip(edges, self.peers))
        for peer in self.peers:
            if peer < node:
                os.symlink(f"{self.folder}/links/node-{peer}.sock", f"{self.nodes}/node-{peer}.sock")

    def start(self, words, environment=None, **more):
        """A process on this machine, in its own process group."""
        within = ["ip", "netns", "exec", self.name, "sh", "-c", 'mount --bind "$0" /etc/hosts && exec "$@"']
        return subprocess.Popen(
            [*within, f"{self.folder}/hosts", *words],
            env={**os.environ, **(environment or {})},
            start_new_session=True,
            **more,
        )

    def start_node(self, repeat=None):
        self.repeat = repeat if repeat else getattr(self, "repeat", 8000)
        words = ["node", "--repeat", str(self.repeat), f"{FOLDER}/network.toml", str(self.node), self.nodes]
        self.process = self.start([PROGRAM, *words], stdout=subprocess.PIPE)
        while self.process.stdout.readline() != b"ready\n":
            assert self.process.poll() is None, "a node does not start"
        self.process.stdout.close()

    def start_units(self):
        self.units = [Unit(self, f"{self.node}-{peer}-{NAMES[peer]}") for peer in self.peers]

    def kill_node(self):
        self.process.kill()
        self.process.wait()

    def end(self):
        for unit in self.units:
            unit.end()
        self.units = []
        if self.process:
            self.kill_node()

    def signal(self, number):
        for word in run("ip", "netns", "pids", self.name).split():
            try:
                os.kill(int(word), number)
            except ProcessLookupError:
                pass

    def scramble(self, rng):
        state = f"{self.nodes}/state-{self.node}.tkt"
        run(PROGRAM, "scramble", f"{FOLDER}/network.toml", str(self.node), state, str(rng.randrange(2**32)))


def certificate(folder, name, authority, *more):
    """The three files of a machine's certificate, from an authority whose files begin with this."""
    os.makedirs(folder, exist_ok=True)
    new = ["-newkey", "ec", "-pkeyopt", "ec_paramgen_curve:prime256v1", "-nodes"]
    if not os.path.exists(f"{authority}.pem"):
        run("openssl", "req", "-x509", *new, "-subj", "/CN=links", "-keyout", f"{authority}.key", "-out", f"{authority}.pem")
    run("openssl", "req", *new, "-subj", f"/CN={name}", "-keyout", f"{folder}/own.key", "-out", f"{folder}/own.csr")
    by = ["-CA", f"{authority}.pem", "-CAkey", f"{authority}.key", "-CAcreateserial"]
    run("openssl", "x509", "-req", "-in", f"{folder}/own.csr", *by, *more, "-out", f"{folder}/own.pem")
    run("cp", f"{authority}.pem", f"{folder}/ca.pem")


class Network:
    """A ring of three machines. Its lines have a delay in milliseconds."""

    def __init__(self, delay):
        run("ip", "netns", "add", "wires")
        self.machines = [Machine(node) for node in range(3)]
        self.lines = [Line(number, edge, delay) for number, edge in enumerate(EDGES)]
        for machine in self.machines:
            certificate(f"{machine.folder}/tls", machine.name, f"{FOLDER}/authority")
        with open(f"{FOLDER}/network.toml", "w") as file:
            edges = [list(edge) for edge in EDGES]
            file.write(f"nodes = 3\nroot = 0\ncapacity = {CAPACITY}\nlease = 0\nedges = {edges}\n")

    def start(self, repeat=8000):
        for machine in self.machines:
            machine.start_node(repeat)
            machine.start_units()

    def nodes_end(self):
        for machine in self.machines:
            machine.end()

    def end(self):
        self.nodes_end()
        for line in self.lines:
            line.end()
        for name in ("wires", *NAMES):
            run("ip", "netns", "del", name)
        run("rm", "-rf", *(machine.folder for machine in self.machines))

    def stands(self):
        """Waits until each node has its true distance, and then has each grant the lock once."""
        until = time.monotonic() + 30
        wanted = [f"node {node} distance {min(node, 1)} parent {'0' if node else 'none'} " for node in range(3)]
        for machine, line in zip(self.machines, wanted):
            while not self.status(machine).startswith(line):
                assert time.monotonic() < until, "the nodes do not come up"
                time.sleep(0.02)
        for machine in self.machines:
            client = Client(f"{machine.nodes}/desk-{machine.node}.sock")
            client.lock()
            client.unlock()

    def status(self, machine):
        words = [PROGRAM, "status", machine.nodes, str(machine.node)]
        return subprocess.run(words, stdout=subprocess.PIPE, text=True).stdout


# --- Frames under way ------------------------------------------------------------------------------------------------


def sockets(machine, *kind):
    """The words of each socket of a machine, as `ss` shows them."""
    text = run("ip", "netns", "exec", machine.name, "ss", "-H", "-n", *kind)
    return [line.split() for line in text.splitlines()]


def unix_queues(machine, path):
    """The bytes that wait at the connections that were accepted at a path, and at their other ends."""
    rows = [row for row in sockets(machine, "-x", "-a") if row[1] == "ESTAB"]
    unread = {row[5]: int(row[2]) for row in rows}
    accepted = [row for row in rows if row[4] == path]
    return sum(int(row[2]) for row in accepted), sum(unread.get(row[7], 0) for row in accepted)


def tcp_queues(machine, port):
    """The bytes of a link's connections that a machine has received and not read, and those not acknowledged."""
    rows = [row for row in sockets(machine, "-t") if any(word.endswith(f":{port}") for word in row[3:5])]
    return sum(int(row[1]) for row in rows), sum(int(row[2]) for row in rows)


def lines_in(count, size):
    return -(-count // size)


def under_way(network, edge):
    """The frames under way in an edge's link, to the lower node and to the higher one; at most two more are in socat."""
    low, high = (network.machines[node] for node in edge)
    port = 17400 + 64 * edge[0] + edge[1]
    low_unread, low_given = unix_queues(low, f"{low.nodes}/node-{low.node}.sock")
    high_given, high_unread = unix_queues(high, f"{high.folder}/links/node-{low.node}.sock")
    low_came, low_sent = tcp_queues(low, port)
    high_came, high_sent = tcp_queues(high, port)
    # The frames from the other higher neighbour count too, since its connections are at the same path.
    to_low = lines_in(high_given + low_unread, LINE) + lines_in(high_sent + low_came, RECORD)
    to_high = lines_in(low_given + high_unread, LINE) + lines_in(low_sent + high_came, RECORD)
    return to_low + 2, to_high + 2


class Watch:
    """Counts the frames under way four times a second, and keeps the most."""

    def __init__(self, network):
        self.network, self.most, self.ends = network, 0, False
        self.thread = threading.Thread(target=self.watch, daemon=True)
        self.thread.start()

    def count(self):
        self.most = max(self.most, *(max(under_way(self.network, edge)) for edge in EDGES))

    def watch(self):
        while not self.ends:
            self.count()
            time.sleep(0.25)

    def end(self):
        self.ends = True
        self.thread.join()
        return self.most


# --- How quick it is -------------------------------------------------------------------------------------------------


def cpu_seconds(pids):
    total = 0
    for pid in pids:
        try:
            with open(f"/proc/{pid}/stat") as file:
                words = file.read().rsplit(")", 1)[1].split()
            total += int(words[11]) + int(words[12])
        except OSError:
            pass
    return total / os.sysconf("SC_CLK_TCK")


def idle(network, seconds):
    """The percentages of a core that an idle node and the links of a machine use."""
    nodes = [machine.process.pid for machine in network.machines]
    links = [int(p) for m in network.machines for p in run("ip", "netns", "pids", m.name).split() if int(p) not in nodes]
    before = cpu_seconds(nodes), cpu_seconds(links)
    time.sleep(seconds)
    return [(cpu_seconds(pids) - b) / seconds / 3 * 100 for pids, b in zip((nodes, links), before)]


def waits(machine, times):
    """The median of all waits for the lock and their 99th percentile, in milliseconds."""
    client, spread = Client(f"{machine.nodes}/desk-{machine.node}.sock"), []
    for _ in range(times):
        time.sleep(0.005 + random.random() * 0.02)
        start = time.perf_counter()
        client.lock()
        spread.append((time.perf_counter() - start) * 1000)
        client.unlock()
    spread.sort()
    return spread[times // 2], spread[times * 99 // 100]


def circuit(machine, times):
    """The median of the token's circuits, in milliseconds: a client asks again at once, and the token passes all others first."""
    client, spread = Client(f"{machine.nodes}/desk-{machine.node}.sock"), []
    client.lock()
    for _ in range(times):
        client.unlock()
        start = time.perf_counter()
        client.lock()
        spread.append((time.perf_counter() - start) * 1000)
    client.unlock()
    return statistics.median(spread)


def count_grants(desk, seconds, out):
    client, count, end = Client(desk), 0, time.perf_counter() + seconds
    while time.perf_counter() < end:
        client.lock()
        client.unlock()
        count += 1
    out.put(count)


def grants(network, seconds):
    out = multiprocessing.Queue()
    desks = [f"{machine.nodes}/desk-{machine.node}.sock" for machine in network.machines]
    clients = [multiprocessing.Process(target=count_grants, args=(desk, seconds, out)) for desk in desks]
    for client in clients:
        client.start()
    count = sum(out.get() for _ in clients)
    for client in clients:
        client.join()
    return count / seconds


def speed_row(network, delay, repeat):
    network.start(repeat)
    network.stands()
    time.sleep(1)
    shares = idle(network, 5)
    repeated = max(max(under_way(network, edge)) for edge in EDGES for _ in range(5)) - 2
    watch = Watch(network)
    times = 300 if delay < 10 else 100
    spreads = [waits(machine, times) for machine in network.machines]
    # Node 2 is a leaf of the tree, so the token passes four lines until it is there again.
    round_trip = circuit(network.machines[2], times // 2)
    rate = grants(network, 5)
    most = watch.end()
    network.nodes_end()
    spread = " | ".join(f"{half:.1f}, {most:.1f}" for half, most in spreads)
    print(
        f"| {delay} | {repeat / 1000:.0f} | {4 * delay}, {round_trip:.1f} | {spread} | {rate:,.0f}"
        f" | {shares[0]:.1f}, {shares[1]:.1f}"
        f" | {repeated}, {most} |",
        flush=True,
    )
    return most + IN_NODE <= CAPACITY


def speed(delays):
    print(
        "| Delay of a line, ms | Repetition, ms | A circuit: its delays, its time, ms | Lock at node 0: p50, p99, ms"
        " | At node 1 | At node 2 | Grants a second | Idle: node, links, of a core in 100 | Frames under way: idle, most |\n"
        + "|---" * 9
        + "|",
        flush=True,
    )
    right = []
    for delay in delays:
        network = Network(delay)
        for repeat in [8000, 100000] if delay > 10 else [8000]:
            right.append(speed_row(network, delay, repeat))
        network.end()
    return all(right)


# --- Faults ----------------------------------------------------------------------------------------------------------


class Faults:
    """The faults of lines and machines; each leaves all in order. `seconds` is the length of the long cut."""

    def __init__(self, network, watch, seconds, rng):
        self.network, self.watch, self.seconds, self.rng = network, watch, seconds, rng

    def cut(self, lines, seconds):
        for line in lines:
            line.cut()
        time.sleep(seconds)
        self.watch.count()
        for line in lines:
            line.mend()

    def a_line_is_cut_for_1_s(self):
        self.cut([self.rng.choice(self.network.lines)], 1)

    def a_line_is_cut_for_long(self):
        self.cut([self.rng.choice(self.network.lines)], self.seconds)

    def all_lines_are_cut_for_5_s(self):
        self.cut(self.network.lines, 5)

    def stop(self, start, go_on, seconds):
        start()
        time.sleep(seconds)
        self.watch.count()
        go_on()

    def a_machine_is_frozen_for_8_s(self):
        machine = self.rng.choice(self.network.machines)
        self.stop(lambda: machine.signal(signal.SIGSTOP), lambda: machine.signal(signal.SIGCONT), 8)

    def a_node_does_not_read_for_8_s(self):
        process = self.rng.choice(self.network.machines).process
        self.stop(lambda: process.send_signal(signal.SIGSTOP), lambda: process.send_signal(signal.SIGCONT), 8)

    def a_link_does_not_read_for_8_s(self):
        unit = self.rng.choice(self.rng.choice(self.network.machines).units)
        self.stop(lambda: unit.signal(signal.SIGSTOP), lambda: unit.signal(signal.SIGCONT), 8)

    def a_link_is_killed(self):
        self.rng.choice(self.rng.choice(self.network.machines).units).signal(signal.SIGKILL)

    def a_machine_restarts_with_its_state_scrambled(self):
        machine = self.rng.choice(self.network.machines)
        machine.end()
        machine.scramble(self.rng)
        machine.start_node()
        machine.start_units()


# The faults that damage nothing: a wrong sum after one of them is the lock's fault.
HARMLESS = [
    (Faults.a_line_is_cut_for_1_s, "a line cut for 1 s"),
    (Faults.a_line_is_cut_for_long, "a line cut for {seconds} s"),
    (Faults.all_lines_are_cut_for_5_s, "all lines cut for 5 s"),
    (Faults.a_machine_is_frozen_for_8_s, "a machine frozen for 8 s, continued"),
    (Faults.a_node_does_not_read_for_8_s, "a node that does not read for 8 s"),
    (Faults.a_link_does_not_read_for_8_s, "a link that does not read for 8 s"),
    (Faults.a_link_is_killed, "a link's processes killed"),
]
HARMFUL = [(Faults.a_machine_restarts_with_its_state_scrambled, "a machine restarted, its state scrambled")]


def settles(adds, since):
    """All adds until each node has granted the lock since then, and after how many nanoseconds; none after 30 s."""
    found, served = [], {}
    while len(served) < 3:
        if time.time_ns() > since + 30 * SECOND:
            return found, None
        time.sleep(0.01)
        for add in adds.new():
            found.append(add)
            if add[0] > since:
                served[add[3]] = min(served.get(add[3], add[1]), add[1])
    return found, max(served.values()) - since


class Try:
    """What a fault did: the time until each node granted the lock after it, and the wrong adds."""

    def __init__(self, adds, faults, fault):
        during = adds.new()[-1:]
        start = time.time_ns()
        fault(faults)
        since = time.time_ns()
        found, self.took = settles(adds, since)
        time.sleep(2.5)
        found = sorted(during + found + adds.new(), key=lambda add: add[1])
        self.wrong = [(add[1] - start) / 1e6 for add in wrong_adds(found)]
        later = [add for add in found if self.took is not None and add[1] > since + self.took + SECOND]
        self.later, self.wrong_later = len(later), len(wrong_adds(later))

    def is_right(self, is_harmless):
        return self.took is not None and self.later > 0 and not self.wrong_later and not (is_harmless and self.wrong)


def fault_row(adds, faults, fault, name, times, is_harmless):
    tries = [Try(adds, faults, fault) for _ in range(times)]
    took = [t.took / 1e6 for t in tries if t.took is not None]
    wrong = [at for t in tries for at in t.wrong]
    right = all(t.is_right(is_harmless) for t in tries)
    again = f"{statistics.median(took):,.0f}, {max(took):,.0f}" if took else "never"
    last = f"{len(wrong)}, {max(wrong):,.0f}" if wrong else "none"
    later = f"{sum(t.later for t in tries):,}, {'right' if right else 'WRONG'}"
    print(f"| {name.format(seconds=faults.seconds)} | {times} | {again} | {last} | {later} |", flush=True)
    return right


def start_clients(network):
    with open(f"{FOLDER}/counter", "w") as file:
        file.write("%020d\n" % 0)
    clients = []
    for m in network.machines:
        words = [sys.executable, __file__]
        clients.append(m.start([*words, "add_by_socket", m.nodes, str(m.node)]))
        clients.append(m.start([*words, "add_by_command", PROGRAM, m.nodes, str(m.node)]))
    return clients


def end_clients(clients):
    for client in clients:
        os.killpg(client.pid, signal.SIGKILL)
        client.wait()
    for path in glob.glob(f"{FOLDER}/log-*"):
        os.remove(path)


def faults(times, seconds):
    network = Network(1)
    network.start()
    network.stands()
    clients, adds, watch = start_clients(network), Adds(), Watch(network)
    done = Faults(network, watch, seconds, random.Random(3))
    assert settles(adds, time.time_ns())[1] is not None
    print(
        "| Fault | Times | Each node grants again after it: median and most, ms | Wrong adds, the last ms after its start"
        " | Adds from a second after that on |\n" + "|---" * 5 + "|",
        flush=True,
    )
    right = [fault_row(adds, done, fault, name, times, True) for fault, name in HARMLESS]
    right += [fault_row(adds, done, fault, name, times, False) for fault, name in HARMFUL]
    most = watch.end()
    end_clients(clients)
    network.end()
    print(f"frames under way at most {most}, with a node's own {most + IN_NODE}, of {CAPACITY}", flush=True)
    return all(right) and most + IN_NODE <= CAPACITY


# --- Strangers -------------------------------------------------------------------------------------------------------

PORT = 17401


def shaken_hands(keys, address="a"):
    """A TLS connection to the link's port, with these certificates or with none."""
    context = ssl.SSLContext(ssl.PROTOCOL_TLS_CLIENT)
    context.check_hostname, context.verify_mode = False, ssl.CERT_NONE
    if keys:
        context.load_cert_chain(f"{keys}/own.pem", f"{keys}/own.key")
    made = context.wrap_socket(socket.create_connection((address, PORT), timeout=5))
    made.settimeout(2)
    return made


def speaks(made, words):
    """Sends this, and returns whether the connection is still there."""
    try:
        made.sendall(words)
        return made.recv(512) != b""
    except TimeoutError:
        return True
    except OSError:
        return False


def stranger(kind, keys):
    """What one stranger does at the port of machine `a`. Runs on machine `b`."""
    junk = random.Random(1).randbytes(1_000_000)
    if kind == "plain":
        with socket.create_connection(("a", PORT), timeout=5) as made:
            made.settimeout(5)
            speaks(made, junk)
    elif kind == "scan":
        for _ in range(200):
            socket.create_connection(("a", PORT), timeout=20).close()
    elif kind == "silent":
        # More than the link serves at once: it closes each, after some seconds.
        made = [socket.create_connection(("a", PORT), timeout=5) for _ in range(10)]
        for one in made:
            one.settimeout(40)
            assert one.recv(1) == b""
    elif kind == "tls":
        try:
            with shaken_hands(keys) as made:
                speaks(made, b"H0001\n" + junk)
        except OSError:
            pass
    else:
        with shaken_hands(keys) as made:
            assert speaks(made, {"right": b"H0001\n", "junk": b"H0001\n" + junk}[kind]) or kind == "junk"


def wrong_certificates():
    """Certificates that the link between `a` and `b` must refuse: from another authority, expired, of another machine."""
    for name in "ab":
        certificate(f"{FOLDER}/strange/{name}", name, f"{FOLDER}/other_authority")
        certificate(f"{FOLDER}/expired/{name}", name, f"{FOLDER}/authority", "-days", "-1")
        certificate(f"{FOLDER}/named/{name}", "c", f"{FOLDER}/authority")


# Each with its word for `stranger`, its certificates, and how many connections reach the node.
STRANGERS = [
    ("no certificate", "tls", "", 0),
    ("a certificate of another authority", "tls", "strange/b", 0),
    ("a certificate that has expired", "tls", "expired/b", 0),
    ("another machine's certificate", "tls", "named/b", 0),
    ("a megabyte of junk in place of TLS", "plain", "", 0),
    ("a scan: 200 connections, closed at once", "scan", "", 0),
    ("10 connections that say nothing", "silent", "", 0),
    ("the right certificate (so that this can fail)", "right", "b/tls", 1),
]


def visits(network, kind, keys):
    machine = network.machines[1]
    words = [sys.executable, __file__, "stranger", kind, f"{FOLDER}/{keys}" if keys else ""]
    return machine.start(words).wait(timeout=90) == 0


def at_the_port(network):
    """Each stranger at the port, with a listener in the node's place that counts connections."""
    machine = network.machines[0]
    path = f"{machine.nodes}/node-0.sock"
    listener = socket.socket(socket.AF_UNIX)
    listener.bind(path)
    listener.listen(300)
    listener.settimeout(0.5)
    machine.units = [Unit(machine, "0-1-b")]
    time.sleep(1)
    right = True
    for name, kind, keys, wanted in STRANGERS:
        done, count = visits(network, kind, keys), 0
        try:
            while True:
                listener.accept()[0].close()
                count += 1
        except TimeoutError:
            pass
        right = right and done and count == wanted
        print(f"| {name} | {count}{'' if done and count == wanted else ', WRONG'} |", flush=True)
    machine.end()
    listener.close()
    os.remove(path)
    return right


def impostor(keys, out):
    """In place of machine `a`'s link: how many bytes the other side sends it, in some seconds."""
    context = ssl.SSLContext(ssl.PROTOCOL_TLS_SERVER)
    context.load_cert_chain(f"{keys}/own.pem", f"{keys}/own.key")
    count, until = 0, time.monotonic() + 4
    with socket.create_server(("", PORT)) as server:
        server.settimeout(0.5)
        while time.monotonic() < until:
            try:
                with context.wrap_socket(server.accept()[0], server_side=True) as made:
                    made.settimeout(1)
                    count += len(made.recv(4096))
            except OSError:
                pass
    with open(out, "w") as file:
        file.write(str(count))


def at_an_impostor(network):
    """The connecting side, with a node that has much to say, at something that is not machine `a`."""
    low, high = network.machines[:2]
    right = True
    for name, keys, is_trusted in [
        ("a certificate of another authority", "strange/a", False),
        ("a certificate that has expired", "expired/a", False),
        ("another machine's certificate", "named/a", False),
        ("the right certificate (so that this can fail)", "a/tls", True),
    ]:
        out = f"{FOLDER}/impostor"
        process = low.start([sys.executable, __file__, "impostor", f"{FOLDER}/{keys}", out])
        high.units = [Unit(high, "1-0-a")]
        while process.poll() is None:
            try:
                with socket.socket(socket.AF_UNIX) as node:
                    node.settimeout(1)
                    node.connect(f"{high.nodes}/node-0.sock")
                    node.sendall(b"H0001\n")
                    node.recv(1)
            except OSError:
                time.sleep(0.05)
        high.end()
        with open(out) as file:
            count = int(file.read())
        is_right = (count > 0) == is_trusted
        right = right and is_right
        print(f"| bytes given to a server with {name} | {count}{'' if is_right else ', WRONG'} |", flush=True)
    return right


def size_of(machine):
    pid = machine.process.pid
    with open(f"/proc/{pid}/status") as file:
        memory = next(int(line.split()[1]) for line in file if line.startswith("VmRSS"))
    return memory, len(os.listdir(f"/proc/{pid}/fd"))


def beside_clients(network, rounds):
    """All strangers again and again at a running network; the nodes must not grow, and each sum must be right."""
    network.start()
    network.stands()
    clients, adds = start_clients(network), Adds()
    assert settles(adds, time.time_ns())[1] is not None
    time.sleep(1)
    before, found = size_of(network.machines[0]), adds.new()
    for _ in range(rounds):
        for _, kind, keys, _ in STRANGERS[:-1]:
            visits(network, kind, keys)
        # A stranger with the right certificate can send anything: noise, and a connection that it closes.
        visits(network, "junk", "b/tls")
    found += settles(adds, time.time_ns())[0]
    time.sleep(1)
    found += adds.new()
    after, wrong = size_of(network.machines[0]), len(wrong_adds(found))
    end_clients(clients)
    network.nodes_end()
    right = not wrong and len(found) > 10 and after[0] <= before[0] + 512 and after[1] <= before[1] + 2
    print(
        f"| all of them {rounds} times while clients add: wrong adds, of how many; node 0's memory in kB and descriptors"
        f" | {wrong} of {len(found):,}; {before[0]} to {after[0]}, {before[1]} to {after[1]}{'' if right else ', WRONG'} |",
        flush=True,
    )
    return right


def strangers(rounds):
    network = Network(0)
    wrong_certificates()
    print("| A stranger | Connections at the node |\n|---|---|", flush=True)
    right = [at_the_port(network), at_an_impostor(network), beside_clients(network, rounds)]
    network.end()
    return all(right)


# --- What is run -----------------------------------------------------------------------------------------------------


def main(program, *words):
    global PROGRAM
    PROGRAM = program
    short = words[:1] == ("short",)
    parts = words[1:] if short else words
    times = int(parts[1]) if parts[:1] == ("faults",) and parts[1:] else 20
    parts = parts[:1]
    assert set(parts) <= {"speed", "faults", "strangers"}, "the parts are speed, faults and strangers"
    print(f"load {os.getloadavg()[0]:.0f}", flush=True)
    right = []
    if not parts or "speed" in parts:
        right.append(speed([0, 10] if short else [0, 1, 10, 50]))
    if not parts or "faults" in parts:
        right.append(faults(2, 5) if short else faults(times, 60))
    if not parts or "strangers" in parts:
        right.append(strangers(1 if short else 3))
    return 0 if all(right) else 1


CALLS = {
    "relay": lambda one, other, delay: relay(one, other, float(delay)),
    "whole_packets": whole_packets,
    "add_by_socket": add_by_socket,
    "add_by_command": add_by_command,
    "stranger": stranger,
    "impostor": impostor,
    "main": lambda *words: sys.exit(main(*words)),
}
if __name__ == "__main__":
    CALLS[sys.argv[1]](*sys.argv[2:])
PYTHON
python3 "$folder/machines.py" main "$2" "${@:4}"
