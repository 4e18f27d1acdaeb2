#!/usr/bin/env bash
# Counts the frames that get under way in one direction of an edge if the receiver stops reading, for each way of
# joining two nodes: just a Unix socket; plain TCP by socat; TLS by packaging/tokentree-link, also with socat's usual
# blocks and with the system's usual buffers; and ssh -L. A sender with the smallest send buffer, as a node has, writes
# frames until none has gone out for two seconds. Then the receiver reads, and must get what was sent, byte for byte.
# Prints a table. Status 1 if bytes were lost or changed, or if the ways that docs/OPERATING.md describes hold more than
# the capacity there minus the 30 frames that a node itself may hold.
#
#   bench/under_way.sh [TIMES]     the worst of TIMES tries (3): two minutes, and half a minute for each try
#
# All of it runs in namespaces of its own, over its loopback, and ends with it. Needs root, unshare, setpriv,
# python3, socat, openssl; for the row of ssh also ssh, ssh-keygen and sshd.
set -euo pipefail
cd "$(dirname "$0")/.."
if [ "${1:-}" != --inside ]; then
    folder=$(mktemp -d)
    trap 'rm -rf "$folder"' EXIT
    trap 'kill -KILL $!; wait; exit 130' HUP INT TERM
    # A process that is killed here takes its children along.
    setpriv --pdeathsig KILL unshare --mount --net --pid --fork --kill-child --mount-proc \
        "$0" --inside "${1:-3}" "$folder" &
    status=0
    wait $! || status=$?
    exit $status
fi
# From here on in namespaces of its own: names, sockets and processes end with this script.
mount -t tmpfs tmpfs /run
mkdir -m 755 /run/sshd
ip link set lo up
python3 - "$PWD/packaging/tokentree-link" "$3" "$2" << 'PYTHON'
import os, shutil, socket, subprocess, sys, time

link, folder, times = sys.argv[1], sys.argv[2], int(sys.argv[3])
LOWER, HIGHER = f"{folder}/lower/node-0.sock", f"{folder}/higher/node-0.sock"
FRAME = 22
# Frames that a node itself may hold: lines that it has read and not taken, one that waits, and those of an older
# connection.
IN_NODE, CAPACITY = 30, 256
LEAST = "sndbuf=1,rcvbuf=1,nodelay"


def run(*words):
    subprocess.run(words, check=True, stdout=subprocess.DEVNULL, stderr=subprocess.DEVNULL)


def certificates():
    """An authority, and a certificate of `localhost`, where both ends are."""
    keys = f"{folder}/keys"
    os.mkdir(keys)
    new = ["-newkey", "ec", "-pkeyopt", "ec_paramgen_curve:prime256v1", "-nodes"]
    authority = ["-CA", f"{keys}/ca.pem", "-CAkey", f"{keys}/ca.key", "-CAcreateserial"]
    run("openssl", "req", "-x509", *new, "-subj", "/CN=links", "-keyout", f"{keys}/ca.key", "-out", f"{keys}/ca.pem")
    run("openssl", "req", *new, "-subj", "/CN=localhost", "-keyout", f"{keys}/own.key", "-out", f"{keys}/own.csr")
    run("openssl", "x509", "-req", "-in", f"{keys}/own.csr", *authority, "-out", f"{keys}/own.pem")
    return keys


def start(words, environment=None):
    # What an end prints when it is ended does not matter.
    return subprocess.Popen(words, env={**os.environ, **(environment or {})}, stderr=subprocess.DEVNULL)


def listens(process):
    """Waits until somebody listens at the port of the edge [0, 1]."""
    until = time.monotonic() + 10
    while time.monotonic() < until:
        with open("/proc/net/tcp") as file:
            if f":{17401:04X} 00000000:0000 0A " in file.read():
                return process
        time.sleep(0.02)
    raise TimeoutError("nobody listens")


def alone():
    os.symlink(LOWER, HIGHER)
    return []


def plain(blocks):
    def begin():
        there = ["socat", *blocks, f"TCP-LISTEN:17401,reuseaddr,{LEAST}", f"UNIX-CONNECT:{LOWER},sndbuf=1"]
        here = ["socat", *blocks, f"UNIX-LISTEN:{HIGHER},sndbuf-late=1", f"TCP:localhost:17401,{LEAST}"]
        return [listens(start(there)), start(here)]
    return begin


def by_link(changes=()):
    """The link's own command, or one with some words changed."""
    def begin():
        with open(link) as file:
            text = file.read()
        for old, new in changes:
            assert old in text, old
            text = text.replace(old, new)
        with open(f"{folder}/link", "w") as file:
            file.write(text)
        environment = {
            "CREDENTIALS_DIRECTORY": f"{folder}/keys",
            "TOKENTREE_NODES": os.path.dirname(LOWER),
            "TOKENTREE_LINKS": os.path.dirname(HIGHER),
        }
        lower = start(["sh", f"{folder}/link", "0-1-localhost"], environment)
        return [listens(lower), start(["sh", f"{folder}/link", "1-0-localhost"], environment)]
    return begin


def by_ssh():
    for name in ("host", "user"):
        run("ssh-keygen", "-q", "-t", "ed25519", "-N", "", "-f", f"{folder}/{name}")
    daemon = [
        "/usr/sbin/sshd", "-D", "-e", "-f", "/dev/null", "-p", "17402", "-h", f"{folder}/host", "-o", "StrictModes=no",
        "-o", f"AuthorizedKeysFile={folder}/user.pub", "-o", "PermitRootLogin=yes", "-o", "PidFile=none", "-o", "UsePAM=no",
    ]
    client = [
        "ssh", "-F", "/dev/null", "-nNT", "-p", "17402", "-i", f"{folder}/user", "-o", "StrictHostKeyChecking=no",
        "-o", "UserKnownHostsFile=/dev/null", "-o", "ConnectionAttempts=20", "-L", f"{HIGHER}:{LOWER}", "localhost",
    ]
    return [start(daemon), start(client)]


def connected(path):
    """A connection as a node makes it, as soon as somebody listens there."""
    until = time.monotonic() + 10
    while True:
        made = socket.socket(socket.AF_UNIX)
        # A size of 0 stands for the least.
        made.setsockopt(socket.SOL_SOCKET, socket.SO_SNDBUF, 0)
        try:
            made.connect(path)
            return made
        except OSError:
            made.close()
            if time.monotonic() > until:
                raise
            time.sleep(0.02)


def fill(sender):
    """Writes frames until none has gone out for two seconds. Returns the bytes then under way."""
    sender.setblocking(False)
    sent, rest, number, moved = bytearray(), b"", 0, time.monotonic()
    while time.monotonic() < moved + 2:
        rest = rest or b"F%04x%04x00010000%04x\n" % (number >> 16, number & 0xFFFF, number & 0xFFFF)
        try:
            count = sender.send(rest)
        except BlockingIOError:
            time.sleep(0.005)
            continue
        sent += rest[:count]
        rest, moved = rest[count:], time.monotonic()
        number += 0 if rest else 1
    return bytes(sent)


def read(receiver, count):
    receiver.settimeout(10)
    got = bytearray()
    while len(got) < count:
        more = receiver.recv(65536)
        if not more:
            break
        got += more
    return bytes(got)


def under_way(begin):
    """The frames under way to the lower node, and to the higher one."""
    for path in (LOWER, HIGHER):
        os.makedirs(os.path.dirname(path))
    listener = socket.socket(socket.AF_UNIX)
    listener.bind(LOWER)
    listener.listen()
    listener.settimeout(20)
    processes = begin()
    try:
        with connected(HIGHER) as higher:
            higher.sendall(b"H0001\n")
            with listener.accept()[0] as lower:
                lower.setsockopt(socket.SOL_SOCKET, socket.SO_SNDBUF, 0)
                assert read(lower, 6) == b"H0001\n"
                counts = []
                for sender, receiver in ((higher, lower), (lower, higher)):
                    sent = fill(sender)
                    assert read(receiver, len(sent)) == sent, "what came is not what was sent"
                    counts.append(-(-len(sent) // FRAME))
                return counts
    finally:
        for process in processes:
            process.terminate()
            process.wait()
        listener.close()
        for path in (LOWER, HIGHER):
            shutil.rmtree(os.path.dirname(path))
        for name in ("host", "host.pub", "user", "user.pub", "link"):
            if os.path.exists(f"{folder}/{name}"):
                os.remove(f"{folder}/{name}")


certificates()
# A connection that does not move may not end so soon, either: filling such buffers takes longer.
LEAST_SENT = [("setsockopt-int=6:25:1,rcvbuf=3072", "sndbuf=1,rcvbuf=1")]
USUAL = [
    (",setsockopt-int=6:25:1,rcvbuf=3072", ""),
    ("setsockopt-int=6:18:5000", "setsockopt-int=6:18:60000"),
]
WAYS = [
    ("a Unix socket alone", alone, 1, True),
    ("plain TCP by `socat`, least buffers, blocks of 22 bytes", plain(["-b", "22"]), times, False),
    ("plain TCP by `socat`, least buffers, its usual blocks", plain([]), times, False),
    ("TLS by `tokentree-link`", by_link(), times, True),
    ("the same with the usual blocks of `socat`", by_link([("socat -b 22", "socat")]), times, True),
    ("the same with the least send buffer of TCP in place of the limit", by_link(LEAST_SENT), times, False),
    ("the same with the system's usual buffers of TCP", by_link(USUAL), 1, False),
]
if all(shutil.which(name, path="/usr/sbin:" + os.environ["PATH"]) for name in ("ssh", "sshd", "ssh-keygen")):
    WAYS.append(("`ssh -L`", by_ssh, 1, False))
right = True
print("| Way | Frames under way, to the lower node | to the higher node |\n|---|---|---|", flush=True)
for name, begin, tries, is_described in WAYS:
    counts = [max(both) for both in zip(*(under_way(begin) for _ in range(tries)))]
    right = right and (not is_described or max(counts) + IN_NODE <= CAPACITY)
    print(f"| {name} | {counts[0]:,} | {counts[1]:,} |", flush=True)
sys.exit(0 if right else 1)
PYTHON
