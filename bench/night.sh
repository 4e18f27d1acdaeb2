#!/usr/bin/env bash
# A night in small: 16 nodes in a grid keep records, 8 clients take the lock again and again, and every ten seconds one
# node is killed. Then `gather` weaves the records, `simulate` judges the list, and this script checks:
#
# - no field differs and no frame is unsent from the start to the first kill, and from 4 s after each kill to 2 s before
#   the next one (`gather --from` begins there, and its first difference comes later): a killed node loses the end of
#   its record;
# - the state at the end of the list is the one that `status` last showed.
#
#   bench/night.sh [SECONDS]     600 if left out
#
# Prints what gather says, the state and each finding; status 1 if one is wrong. The program is ./tokentree, or what
# TOKENTREE names. Needs python3.
set -euo pipefail
seconds=${1:-600}
cd "$(dirname "$0")/.."
[ -n "${TOKENTREE:-}" ] || ./tokentree --build
program=$(realpath "${TOKENTREE:-crates/tokentree/out/tokentree}")
folder=$(mktemp -d)
trap 'rm -rf "$folder"' EXIT
"$program" network grid 4 4 --capacity 64 --lease 2000 > "$folder/grid.toml"
python3 - "$program" "$folder" "$seconds" << 'PYTHON'
import math, os, random, re, signal, subprocess, sys, threading, time

program, folder, seconds = sys.argv[1], sys.argv[2], float(sys.argv[3])
NETWORK, RUN = f"{folder}/grid.toml", f"{folder}/run"
NODES = 16
draw = random.Random(1)
end = time.time() + seconds
kills, grants = [], [0]


def said(words):
    return subprocess.run([program, *words], capture_output=True, text=True)


def pids(node):
    """The process of a node, found by its words."""
    found = []
    for name in os.listdir("/proc"):
        if name.isdigit():
            try:
                with open(f"/proc/{name}/cmdline", "rb") as file:
                    words = file.read().split(b"\0")
            except OSError:
                continue
            if b"node" in words and words[-4:-1] == [NETWORK.encode(), str(node).encode(), RUN.encode()]:
                found.append(int(name))
    return found


def client(number):
    chosen = random.Random(number)
    while time.time() < end - 2:
        done = said(["lock", RUN, str(chosen.randrange(NODES)), "--timeout", "20", "--", "sleep", "0.02"])
        grants[0] += done.returncode == 0


began = time.time()
up = subprocess.Popen([program, "up", NETWORK, RUN, "--record", "--record-size", "1073741824"],
                      stdin=subprocess.PIPE, stdout=subprocess.DEVNULL, stderr=subprocess.DEVNULL)
while said(["status", RUN, "--check", NETWORK]).returncode != 0:
    time.sleep(0.2)
clients = [threading.Thread(target=client, args=(number,)) for number in range(8)]
for one in clients:
    one.start()
while time.time() < end - 8:
    time.sleep(10)
    node = draw.randrange(NODES)
    for process in pids(node):
        os.kill(process, signal.SIGKILL)
        kills.append((node, time.time() * 1e6))
for one in clients:
    one.join()
time.sleep(3)
status = said(["status", RUN]).stdout
up.send_signal(signal.SIGTERM)
up.wait()
with open(f"{folder}/events", "w") as file:
    gathered = subprocess.run([program, "gather", RUN], stdout=file, stderr=subprocess.PIPE, text=True)
print(gathered.stderr, end="")
judged = said(["simulate", NETWORK, f"{folder}/events"])
wrong = []
differs = re.compile(r"node \d+ differs at microsecond (\d+): .*")
# From when on no field may differ, and until when.
ends = [at / 1e6 for _, at in kills]
quiet = list(zip([0.0] + [at - began + 4 for at in ends], ends + [float("inf")]))
for first, last in quiet:
    words = [program, "gather", RUN, "--from", str(math.ceil(first))]
    later = subprocess.run(words, stdout=subprocess.DEVNULL, stderr=subprocess.PIPE, text=True)
    found = differs.search(later.stderr)
    if later.returncode != 0 or found and int(found.group(1)) / 1e6 < last - 2:
        wrong.append(f"after {first:.1f} s, {last - began:.1f} s being the next kill: {later.stderr}")
places = re.compile(r"^node (\d+) distance (\d+) parent (\S+)", re.M)
before, after = places.findall(status), places.findall(judged.stdout)
if not before or before != after:
    wrong.append(f"the state at the end is another one:\n{status}\n{judged.stdout}")
print(f"{len(kills)} kills, {grants[0]} locks, {os.path.getsize(folder + '/events')} bytes of events")
print("\n".join(line for line in judged.stdout.splitlines() if line.startswith(("sweeps", "served", "legitimate"))))
print("\n".join(f"WRONG  {one}" for one in wrong) if wrong else "all is as it should be")
sys.exit(bool(wrong))
PYTHON
