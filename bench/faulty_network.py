"""A network of node processes, clients that take its lock again and again, and faults that strike it.

At each node two clients take the lock, a loop over a socket and `tokentree lock`. Under it they add one to a number in a
file that nothing else guards. So an add is wrong if it does not give one more than the add before it: then two clients held
the lock at once. Used by bench/faults.sh and bench/recovery.sh.
"""
import glob
import json
import multiprocessing
import os
import random
import socket
import subprocess
import time

SECOND = 1_000_000_000

# What `lock` runs: it raises the number by one, in one write that cuts nothing off. The log says when, and to what.
ADD = """
start=$(date +%s%N)
read -r number < "$0"
number=$(expr "$number" + 1)
printf '%020d\\n' "$number" 1<> "$0"
echo "$start $(date +%s%N) $number" >> "$1"
"""


def ring(nodes):
    return [[i, (i + 1) % nodes] for i in range(nodes)]


def line(nodes):
    return [[i, i + 1] for i in range(nodes - 1)]


def star(nodes):
    return [[0, i] for i in range(1, nodes)]


def connect(path):
    made = socket.socket(socket.AF_UNIX)
    made.settimeout(10)
    made.connect(path)
    return made


def lend_and_add(desk, counter, log, rng):
    """One loan of a node's desk, which raises the number by one."""
    desk.sendall(b"lock\n")
    assert desk.recv(64) == b"granted\n"
    start = time.time_ns()
    number = int(os.pread(counter, 20, 0)) + 1
    # Time enough for another add in between, if two clients hold the lock.
    time.sleep(rng.random() / 1000)
    os.pwrite(counter, b"%020d\n" % number, 0)
    os.write(log, b"%d %d %d\n" % (start, time.time_ns(), number))
    desk.sendall(b"unlock\n")
    assert desk.recv(64) == b"released\n"


def by_socket(run, node):
    """A client that asks for the lock again as soon as it has released it, and connects again if its node is gone."""
    counter = os.open(f"{run}/counter", os.O_RDWR)
    log = os.open(f"{run}/log-socket-{node}", os.O_WRONLY | os.O_CREAT | os.O_APPEND)
    rng = random.Random(node)
    while True:
        try:
            with connect(f"{run}/desk-{node}.sock") as desk:
                while True:
                    lend_and_add(desk, counter, log, rng)
        except (OSError, AssertionError):
            time.sleep(0.002)


def by_command(program, run, node, ended):
    """The same by `lock`, with a rest between."""
    words = [program, "lock", run, str(node), "--", "sh", "-c", ADD, f"{run}/counter", f"{run}/log-command-{node}"]
    while True:
        ended.put(subprocess.run(words, stderr=subprocess.DEVNULL).returncode)
        time.sleep(0.1)


class Network:
    """Nodes as processes, in their own folder."""

    def __init__(self, program, folder, name, edges):
        self.program, self.nodes = program, 1 + max(max(edge) for edge in edges)
        self.run, self.file = f"{folder}/run-{name}", f"{folder}/{name}.toml"
        with open(self.file, "w") as file:
            file.write(f"nodes = {self.nodes}\nroot = 0\ncapacity = 64\nlease = 0\nedges = {edges}\n")
        bounds = self.bound()
        self.counters, self.ring = int(bounds["counter"]), int(bounds["ring"])
        self.edges = [(min(edge), max(edge)) for edge in edges]
        os.mkdir(self.run, 0o700)
        with open(f"{self.run}/counter", "w") as file:
            file.write("%020d\n" % 0)
        self.processes, self.read, self.waiting = {}, {}, []
        for node in range(self.nodes):
            self.start(node)

    def bound(self, *words):
        """The numbers that `bound` prints, by the words before them."""
        text = subprocess.run([self.program, "bound", self.file, *words], check=True, capture_output=True, text=True).stdout
        return dict(line.removesuffix(" ms").rsplit(" ", 1) for line in text.splitlines())

    def start(self, node):
        words = [self.program, "node", self.file, str(node), self.run]
        self.processes[node] = subprocess.Popen(words, stdout=subprocess.DEVNULL)

    def kill(self, nodes):
        for node in nodes:
            self.processes[node].kill()
        for node in nodes:
            self.processes[node].wait()

    def stop(self, nodes):
        for node in nodes:
            open(f"{self.run}/stop-{node}", "w").close()
        return [self.processes[node].wait(timeout=10) for node in nodes]

    def state(self, node):
        return f"{self.run}/state-{node}.tkt"

    def scramble(self, node, rng):
        words = [self.program, "scramble", self.file, str(node), self.state(node), str(rng.randrange(2**32))]
        subprocess.run(words, check=True)

    def send(self, edge, data):
        """Writes bytes to the lower node of an edge as its neighbour; the neighbour's own connection then closes."""
        low, high = edge
        try:
            with connect(f"{self.run}/node-{low}.sock") as link:
                link.sendall(b"H%04x\n" % high + data)
        except OSError:
            pass

    def junk(self, rng):
        words = [self.program, "junk", str(rng.randrange(2**32)), "1000"]
        return subprocess.run(words, check=True, capture_output=True).stdout

    def forged(self, rng):
        """A hundred frames with any values in range."""
        def frame():
            parent = rng.choice([*range(self.nodes), 0xFFFF])
            fields = rng.randrange(self.counters), rng.randrange(self.counters), rng.randrange(self.nodes + 1), parent
            return b"F%04x%04x%04x%04x" % fields + b"%04x\n" % rng.randrange(self.ring)
        return b"".join(frame() for _ in range(100))

    def look(self, node):
        """What a node says to lookers, as soon as it does; its instant is when it was read."""
        until = time.time() + 10
        while True:
            try:
                with connect(f"{self.run}/look-{node}.sock") as looker, looker.makefile() as lines:
                    return {**json.loads(lines.readline()), "at": time.time_ns()}
            except (OSError, ValueError):
                if time.time() > until:
                    raise
                time.sleep(0.002)

    def looks(self):
        """The same for all nodes."""
        return [self.look(node) for node in range(self.nodes)]

    def adds(self):
        """The adds since the last call: when the loan began, when the number was written, which, and at which node.

        The logs are read one after the other while adds go on. So the adds of the last fifth of a second wait for the
        next call: else one could be given before its forerunner, which stands in a log that was read earlier.
        """
        until = time.time_ns() - SECOND // 5
        for path in glob.glob(f"{self.run}/log-*"):
            with open(path) as log:
                log.seek(self.read.get(path, 0))
                text = log.read()
            whole = text[: text.rfind("\n") + 1]
            self.read[path] = self.read.get(path, 0) + len(whole)
            node = int(path.rsplit("-", 1)[1])
            self.waiting += [(*map(int, line.split()), node) for line in whole.splitlines()]
        given = [add for add in self.waiting if add[1] < until]
        self.waiting = [add for add in self.waiting if add[1] >= until]
        return sorted(given, key=lambda add: add[1])


def stop_one(net, rng):
    node = rng.randrange(net.nodes)
    assert net.stop([node]) == [0]
    net.start(node)


def kill_one(net, rng):
    node = rng.randrange(net.nodes)
    net.kill([node])
    net.start(node)


def kill_all(net, rng):
    net.kill(range(net.nodes))
    for node in range(net.nodes):
        net.start(node)


def scramble_one(net, rng):
    node = rng.randrange(net.nodes)
    net.kill([node])
    net.scramble(node, rng)
    net.start(node)


def scramble_all(net, rng):
    net.kill(range(net.nodes))
    for node in range(net.nodes):
        net.scramble(node, rng)
    for node in range(net.nodes):
        net.start(node)


def cut_one(net, rng):
    node = rng.randrange(net.nodes)
    net.kill([node])
    subprocess.run([net.program, "cut", net.state(node), "33"], check=True)
    net.start(node)


def junk_one(net, rng):
    net.send(rng.choice(net.edges), net.junk(rng))


def forge_one(net, rng):
    net.send(rng.choice(net.edges), net.forged(rng))


def forge_all(net, rng):
    for edge in net.edges:
        net.send(edge, net.junk(rng) + net.forged(rng))


FAULTS = [
    ("a node stopped by its stop file, started", stop_one),
    ("a node killed, started", kill_one),
    ("all nodes killed, started", kill_all),
    ("a node killed, its state scrambled", scramble_one),
    ("all nodes killed, all states scrambled", scramble_all),
    ("a node killed, its state cut", cut_one),
    ("1000 lines of junk into a link", junk_one),
    ("100 forged frames into a link", forge_one),
    ("junk and forged frames into every link", forge_all),
]


def settles(net, since):
    """All adds until each node has lent the lock since then, and after how many nanoseconds; none after 30 s."""
    adds, served = [], {}
    while len(served) < net.nodes:
        if time.time_ns() > since + 30 * SECOND:
            return adds, None
        time.sleep(0.01)
        new = [add for add in net.adds() if add[1] > since]
        adds += new
        for start, written, _, node in new:
            if start > since:
                served[node] = min(served.get(node, written), written)
    return adds, max(served.values()) - since


def wrong_adds(adds):
    return [add for before, add in zip(adds, adds[1:]) if add[2] != before[2] + 1]


class Clients:
    """Two clients at each node of a network."""

    def __init__(self, net):
        self.net, self.ended = net, multiprocessing.Queue()
        self.running = [multiprocessing.Process(target=by_socket, args=(net.run, node)) for node in range(net.nodes)]
        self.running += [
            multiprocessing.Process(target=by_command, args=(net.program, net.run, node, self.ended)) for node in range(net.nodes)
        ]
        for client in self.running:
            client.start()

    def end(self):
        """Ends the clients and then the nodes. Returns how often `lock` ended with each status, and the nodes' statuses."""
        for client in self.running:
            client.kill()
            client.join()
        statuses = {}
        while not self.ended.empty():
            status = self.ended.get()
            statuses[status] = statuses.get(status, 0) + 1
        # A client that holds the lock when the clients are killed releases it before a node can stop.
        time.sleep(0.5)
        return dict(sorted(statuses.items())), self.net.stop(range(self.net.nodes))
