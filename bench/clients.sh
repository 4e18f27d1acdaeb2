#!/usr/bin/env bash
# Tries the clients of examples/clients against a ring of three nodes: all at once under one lock that guards a number;
# a limit; a lease that ends a hold; a node that is killed; a node with 64 that wait; a node that is not there. Prints a
# row each; status 1 if any is wrong, or if none could be tried. A language that this machine does not have is named and
# left out.
#
#   bench/clients.sh [TIMES]     how often each client takes the lock to add one (20)
#
# The program is ./tokentree, or what TOKENTREE names. Needs python3; cc, rustc, go, and socat for the others. Without
# socat, the shell's client runs over a stand-in of eight lines.
set -euo pipefail
cd "$(dirname "$0")/.."
[ -n "${TOKENTREE:-}" ] || ./tokentree --build
program=$(realpath "${TOKENTREE:-crates/tokentree/out/tokentree}")
folder=$(mktemp -d)
trap 'rm -rf "$folder"' EXIT
python3 - "$program" "$folder" "${1:-20}" << 'PYTHON'
import os, shutil, signal, socket, subprocess, sys, threading, time

program, folder, times = sys.argv[1], sys.argv[2], int(sys.argv[3])
SOURCES = os.path.abspath("examples/clients")
wrong = 0

SOCAT = """#!/usr/bin/env python3
import os, select, socket, sys
desk = socket.socket(socket.AF_UNIX)
desk.connect(sys.argv[2].removeprefix("UNIX-CONNECT:"))
while True:
    for ready in select.select([0, desk], [], [])[0]:
        piece = os.read(0, 256) if ready == 0 else desk.recv(256)
        piece or sys.exit()
        desk.sendall(piece) if ready == 0 else os.write(1, piece)
"""


def report(row, faults):
    global wrong
    wrong += bool(faults)
    print(f"{'WRONG' if faults else 'right'}  {row}" + "".join(f"\n       {fault}" for fault in faults), flush=True)


def built():
    """The command that runs each client, by its language."""
    made = {"python": ["python3", f"{SOURCES}/tokentree_lock.py"], "shell": ["sh", f"{SOURCES}/tokentree_lock.sh"]}
    if not shutil.which("socat"):
        print("no socat here: the shell's client runs over a stand-in")
        os.mkdir(f"{folder}/bin")
        with open(f"{folder}/bin/socat", "w") as file:
            file.write(SOCAT)
        os.chmod(f"{folder}/bin/socat", 0o755)
        os.environ["PATH"] = f"{folder}/bin:{os.environ['PATH']}"
    compilers = {"c": ["cc", "-Wall", "-Wextra", "-Werror", "-O1", "-o"], "rust": ["rustc", "--edition", "2021", "-O", "-o"],
                 "go": ["go", "build", "-o"]}
    for language, (compiler, *words) in compilers.items():
        if not shutil.which(compiler):
            print(f"no {compiler} here: the client for {language} is not tried")
            continue
        ending = {"c": "c", "rust": "rs", "go": "go"}[language]
        made[language] = [f"{folder}/{language}"]
        subprocess.run([compiler, *words, made[language][0], f"{SOURCES}/tokentree_lock.{ending}"], check=True)
    return made


class Nodes:
    """A ring of three nodes as processes, in their own folder."""

    def __init__(self, name, lease):
        self.run, self.file = f"{folder}/{name}", f"{folder}/{name}.toml"
        with open(self.file, "w") as file:
            file.write(f"nodes = 3\nroot = 0\ncapacity = 64\nlease = {lease}\nedges = [[0, 1], [1, 2], [0, 2]]\n")
        os.mkdir(self.run, 0o700)
        self.processes = [self.start(node) for node in range(3)]
        self.settle()

    def start(self, node):
        return subprocess.Popen([program, "node", self.file, str(node), self.run], stdout=subprocess.DEVNULL, stderr=subprocess.DEVNULL)

    def settle(self):
        """Waits until each node has lent the lock once."""
        for node in range(3):
            subprocess.run([program, "lock", "--timeout", "30", self.run, str(node), "--", "true"], check=False, stderr=subprocess.DEVNULL)

    def desk(self, node):
        return f"{self.run}/desk-{node}.sock"

    def __enter__(self):
        return self

    def __exit__(self, *_):
        for process in self.processes:
            process.kill()
            process.wait()


class Client:
    """A running client. It holds the lock until its input is closed."""

    def __init__(self, words, desk, limit):
        self.process = subprocess.Popen([*words, desk, str(limit)], stdin=subprocess.PIPE, stdout=subprocess.PIPE,
                                        stderr=subprocess.DEVNULL, text=True)

    def line(self):
        return self.process.stdout.readline().strip()

    def end(self):
        """Closes its input. Returns its last line and its status."""
        self.process.stdin.close()
        return self.line(), self.process.wait(timeout=15)


def add(words, desk, counter, faults):
    """Takes the lock and adds one to the number that nothing else guards, this many times."""
    for _ in range(times):
        client = Client(words, desk, 60)
        if (said := client.line()) != "granted":
            faults.append(f"{words[-1]} said {said!r}, status {client.end()[1]}")
            continue
        number = int(open(counter).read())
        time.sleep(0.002)
        with open(counter, "w") as file:
            file.write(str(number + 1))
        if (ended := client.end()) != ("released", 0):
            faults.append(f"{words[-1]} ended with {ended}")


def all_at_once(clients):
    with Nodes("adding", 0) as nodes:
        counter, faults = f"{folder}/counter", []
        with open(counter, "w") as file:
            file.write("0")
        workers = [threading.Thread(target=add, args=(words, nodes.desk(place % 3), counter, faults))
                   for place, words in enumerate(clients.values())]
        [worker.start() for worker in workers]
        [worker.join() for worker in workers]
        wanted, number = times * len(clients), int(open(counter).read())
        report(f"{len(clients)} clients at once add {number} of {wanted}", faults + ["two held it at once"] * (number != wanted))


def one_by_one(language, words):
    with Nodes(f"lease-{language}", 200) as nodes:
        client = Client(words, nodes.desk(1), 20)
        faults = [] if client.line() == "granted" else ["not granted"]
        said, status = client.line(), client.process.wait(timeout=15)
        report(f"{language}: a lease of 0.4 s ends its hold", faults + [f"{said} {status}"] * ((said, status) != ("lost", 122)))

    with Nodes(f"killed-{language}", 0) as nodes:
        client = Client(words, nodes.desk(1), 20)
        faults = [] if client.line() == "granted" else ["not granted"]
        nodes.processes[1].kill()
        said, status = client.line(), client.process.wait(timeout=15)
        report(f"{language}: its node is killed while it holds", faults + [f"{said} {status}"] * ((said, status) != ("lost", 122)))
        status = Client(words, nodes.desk(1), 2).process.wait(timeout=15)
        report(f"{language}: its node is not there", [f"status {status}"] * (status != 125))
        nodes.processes[1].wait()

    with Nodes(f"full-{language}", 0) as nodes:
        holder = Client(words, nodes.desk(1), 20)
        faults = [] if holder.line() == "granted" else ["not granted"]
        started = time.time()
        status = Client(words, nodes.desk(1), 1).process.wait(timeout=15)
        took = time.time() - started
        late = status != 124 or not 0.9 < took < 3
        report(f"{language}: a limit of 1 s ends its wait", faults + [f"status {status} after {took:.1f} s"] * late)
        waiting = [socket.socket(socket.AF_UNIX) for _ in range(64)]
        for desk in waiting:
            desk.connect(nodes.desk(1))
            desk.sendall(b"lock\n")
        time.sleep(0.5)
        status = Client(words, nodes.desk(1), 5).process.wait(timeout=15)
        [desk.close() for desk in waiting]
        ended = holder.end()
        report(f"{language}: 64 wait there already", [f"status {status}"] * (status != 125) + [f"{ended}"] * (ended != ("released", 0)))


clients = built()
all_at_once(clients)
for language, words in clients.items():
    one_by_one(language, words)
sys.exit(1 if wrong or not clients else 0)
PYTHON
