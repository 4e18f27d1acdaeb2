#!/usr/bin/env bash
# Measures the threads of `tokentree threads` on the line of three, the square and a ring of 16, and the same threads in
# plain Rust (plain_threads.rs), whose rings publish by release and acquire, and then by sequentially consistent atomics,
# as the proved rings do. For each it prints the median of seven runs of 200,000 turns (or of $1), in million events a
# second from the first thread's start to the last one's end, as the system reports it, and the most memory. One run of
# each comes after the other, so that other work on the machine slows all alike. The number of events differs from run to
# run. Without `rustc`, it says so, and instead measures `simulate` on the events of the last run, reading and printing
# included. Needs python3. The program is ./tokentree, or what TOKENTREE names.
set -euo pipefail
turns=${1:-200000}
cd "$(dirname "$0")/.."
[ -n "${TOKENTREE:-}" ] || ./tokentree --build
program=$(realpath "${TOKENTREE:-crates/tokentree/out/tokentree}")
folder=$(mktemp -d)
trap 'rm -rf "$folder"' EXIT
plain=
if command -v rustc > /dev/null; then
    rustc -C opt-level=3 -o "$folder/plain" bench/plain_threads.rs
    rustc -C opt-level=3 --cfg sequential -o "$folder/sequential" bench/plain_threads.rs
    plain=$folder/plain
else
    echo 'no rustc: nothing in plain Rust is measured' >&2
fi

# Writes the network file of $1 nodes with the edges $2, whose links hold 16 items.
network() {
    printf 'nodes = %s\nroot = 0\ncapacity = 16\nlease = 0\nedges = [%s]\n' "$1" "$2"
}

network 3 '[0, 1], [1, 2]' > "$folder/line.toml"
network 4 '[0, 1], [0, 2], [1, 3], [2, 3]' > "$folder/square.toml"
network 16 "$(awk 'BEGIN { for (v = 0; v < 16; v++) printf "%s[%d, %d]", v ? ", " : "", v, (v + 1) % 16 }')" \
    > "$folder/ring.toml"

python3 - "$folder" "$turns" "$program" "$plain" <<'PYTHON'
import re, statistics, subprocess, sys, time

folder, turns, program, plain = sys.argv[1:]
RUNS = 7


class Measure:
    """One run of a program: the seconds with threads, all its seconds, its most kilobytes, and its output."""

    def __init__(self, words):
        self.memory = 0
        start = time.perf_counter()
        with open(f"{folder}/output", "w+") as output:
            child = subprocess.Popen(words, stdout=output)
            self.threads = self.watch(child.pid)
            assert child.wait() == 0, words
            self.all = time.perf_counter() - start
            output.seek(0)
            self.output = output.read()

    def watch(self, process):
        """Checks every half millisecond how many threads there are, until the process has ended."""
        first = last = None
        while True:
            with open(f"/proc/{process}/status") as lines:
                status = dict(line.split(":", 1) for line in lines)
            now = time.perf_counter()
            if "VmHWM" not in status:
                return last - first if first and last > first else None
            self.memory = int(status["VmHWM"].split()[0])
            if int(status["Threads"]) > 1:
                first, last = first or now, now
            time.sleep(0.0005)


def medians(name, ways):
    """The medians of some runs, in turn, of each way to run a network: a run is a number of events and its seconds."""
    rows = {what: [] for what, _ in ways}
    for _ in range(RUNS):
        for what, run in ways:
            events, seconds, memory = run(name)
            if seconds:
                rows[what].append((events / seconds / 1e6, memory))
    rates = {}
    for what, seen in rows.items():
        if not seen:
            print(f"{name:6} {what:19} too short to be seen: give more turns")
            continue
        rates[what] = statistics.median(rate for rate, _ in seen)
        memory = max(memory for _, memory in seen)
        print(f"{name:6} {what:19} {rates[what]:7.2f} million events a second, {memory / 1000:7.1f} MB", flush=True)
    return rates


def of_threads(name):
    events = f"{folder}/events"
    measure = Measure([program, "threads", f"{folder}/{name}.toml", turns, "--events", events])
    with open(events, "rb") as text:
        return sum(block.count(b"\n") for block in iter(lambda: text.read(1 << 20), b"")), measure.threads, measure.memory


def of_program(path):
    def run(name):
        measure = Measure([path, name, turns])
        return int(re.match(r"(\d+) events", measure.output)[1]), measure.threads, measure.memory

    return run


def of_simulate(name):
    events = f"{folder}/events"
    measure = Measure([program, "simulate", f"{folder}/{name}.toml", events])
    with open(events, "rb") as text:
        return sum(block.count(b"\n") for block in iter(lambda: text.read(1 << 20), b"")), measure.all, measure.memory


WAYS = [("tokentree", of_threads)]
if plain:
    WAYS += [("plain Rust", of_program(plain)), ("plain, sequential", of_program(f"{folder}/sequential"))]
else:
    WAYS += [("simulate", of_simulate)]

for name in ("line", "square", "ring"):
    rates = medians(name, WAYS)
    for what, other in rates.items():
        if plain and what != "tokentree" and "tokentree" in rates:
            print(f"{name:6} {what:19} ratio {rates['tokentree'] / other:.2f}", flush=True)
PYTHON
