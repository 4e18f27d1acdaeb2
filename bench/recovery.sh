#!/usr/bin/env bash
# Measures how long networks of node processes take to recover, and compares that with the time that is proved for the
# premises that the nodes themselves saw. At each node two clients take the lock again and again
# (bench/faulty_network.py). Each of nine faults strikes rings of 3 and 8 nodes, a line of 8 and a star of 16.
#
# A try begins when the fault has ended, all nodes run and all links are up, by what nodes say to lookers
# (DIR/look-ID.sock). It is over when every node has lent. It gives the time to the last wrong grant and to the first
# loan of every node. The proved time is what `bound --time` prints for that run: --turn is twice the longest time
# between the ends of two turns (a turn itself is no longer than that), --loan the longest loan as its node saw it;
# --repeat is 8 ms, and a frame arrives at once. A node keeps its longest loan since its start, and its turns of the
# last minute, so both are no shorter than in the run.
#
# Prints a row for each fault: median and most of both times, the longest loan and gap, the late turns, and the least of
# the proved times. Status 1 if a try exceeded its proved time, a link broke in it, or a node did not lend within 30 s.
#
#   bench/recovery.sh             each fault 20 times: some 50 minutes
#   bench/recovery.sh short       a ring of 3, each fault 3 times: some two minutes
#   bench/recovery.sh TIMES       each fault TIMES times
#   bench/recovery.sh TIMES NET   of one network alone: "ring of 3", "ring of 8", "line of 8" or "star of 16"
#
# The program is ./tokentree, or what TOKENTREE names. Needs python3.
set -euo pipefail
cd "$(dirname "$0")/.."
[ -n "${TOKENTREE:-}" ] || ./tokentree --build
program=$(realpath "${TOKENTREE:-crates/tokentree/out/tokentree}")
folder=$(mktemp -d)
trap 'rm -rf "$folder"' EXIT
PYTHONPATH=$PWD/bench PYTHONDONTWRITEBYTECODE=1 python3 - "$program" "$folder" "${1:-20}" "${2:-}" << 'PYTHON'
import os, random, statistics, sys, time
from faulty_network import FAULTS, Clients, Network, line, ring, settles, star, wrong_adds

program, folder, word = sys.argv[1], sys.argv[2], sys.argv[3]
times = 3 if word == "short" else int(word)
NETWORKS = [("ring of 3", ring(3))]
if word != "short":
    NETWORKS += [("ring of 8", ring(8)), ("line of 8", line(8)), ("star of 16", star(16))]
if sys.argv[4]:
    NETWORKS = [(name, edges) for name, edges in NETWORKS if name == sys.argv[4]] or sys.exit(f"no network {sys.argv[4]}")


def gap(looks):
    """The longest time between the ends of two turns of the last minute, in milliseconds."""
    return max(look["turns"]["lately_us"] for look in looks) / 1000


def loan(looks):
    """The longest loan, in milliseconds."""
    return max(max(look["loans"]["longest_us"], look["loans"]["present_us"] or 0) for look in looks) / 1000


def starts(looks):
    return {look["node"]: look["process"] for look in looks}


def late_since(before, looks):
    """How many turns were late since then, by what nodes said then and now; all late turns of a new process."""
    then, was = {look["node"]: look["turns"]["late"] for look in before}, starts(before)
    return sum(
        look["turns"]["late"] - (then[look["node"]] if was[look["node"]] == look["process"] else 0) for look in looks
    )


def up_since(look):
    """When the youngest link of a node came up, or a little before that: each turn notes only one link."""
    ages = [link["for_us"] if link["up"] else 0 for link in look["links"]]
    return look["at"] - min(ages) * 1000


def begin(net, since):
    """When the fault was over, all nodes ran and all links were up. A link is noted at most one turn for each node too late."""
    counts = [look["turns"]["count"] + net.nodes for look in net.looks()]
    while True:
        looks = net.looks()
        noted = all(look["turns"]["count"] >= count for look, count in zip(looks, counts))
        if noted and all(link["up"] for look in looks for link in look["links"]):
            break
        if time.time_ns() > since + 10**10:
            return since, looks
        time.sleep(0.005)
    slack = net.nodes * gap(looks) * 1e6
    started = max(look["start_ms"] * 10**6 for look in looks)
    linked = max(up_since(look) for look in looks)
    return max(since, started, int(linked - slack)), looks


def breaks(looks):
    return [(look["process"], link["node"], link["breaks"]) for look in looks for link in look["links"]]


def try_fault(net, fault, rng):
    """When the last wrong grant was, and when every node had lent, in milliseconds; the premises; the proved times."""
    net.adds()
    before = net.looks()
    fault(net, rng)
    since, first = begin(net, time.time_ns())
    adds, took = settles(net, since)
    looks = net.looks()
    time.sleep(1)
    adds = sorted(adds + net.adds(), key=lambda add: add[1])
    wrong = [(add[1] - since) / 1e6 for add in wrong_adds(adds) if add[1] > since]
    premises = gap(looks), loan(looks)
    proved = net.bound("--time", "--turn", f"{2 * premises[0]:.3f}", "--loan", f"{premises[1]:.3f}")
    return {
        "wrong": max(wrong, default=0.0),
        "lent": took / 1e6 if took is not None else None,
        "gap": premises[0],
        "loan": premises[1],
        "late": late_since(before, looks),
        "kept": breaks(first) == breaks(looks),
        "recovers": int(proved["recovers within"]),
        "lends": int(proved["lends within"]),
    }


def passes(tried):
    """Whether a try exceeded its proved time. At most two clients wait at a node, and they rest at most 100 ms in between."""
    return tried["wrong"] > tried["recovers"] or tried["lent"] > tried["recovers"] + tried["lends"] * 3 / 2 + 100


def two(values):
    return f"{statistics.median(values):.0f}, {max(values):.0f}"


def verdict(tries, lent):
    if len(lent) < times:
        return "NEVER"
    if passed := sum(passes(tried) for tried in tries):
        return f"PASSED in {passed}"
    broken = sum(not tried["kept"] for tried in tries)
    return f"A LINK BROKE in {broken}" if broken else "within"


def row(name, net, fault_name, fault, rng):
    """Tries a fault, prints its row of the table, and returns whether each try was within its proved time."""
    tries = [try_fault(net, fault, rng) for _ in range(times)]
    lent = [tried["lent"] for tried in tries if tried["lent"] is not None]
    most = {key: max(tried[key] for tried in tries) for key in ("gap", "loan")}
    found = verdict(tries, lent)
    print(
        f"| {name} | {fault_name} | {times} | {two([t['wrong'] for t in tries])} | {two(lent) if lent else 'never'}"
        f" | {most['gap']:.1f}, {sum(t['late'] for t in tries)} | {most['loan']:.1f}"
        f" | {min(t['recovers'] for t in tries)}, {min(t['lends'] for t in tries)} | {found} |",
        flush=True,
    )
    return found == "within"


def try_network(name, edges):
    net = Network(program, folder, name.replace(" ", "-"), edges)
    clients = Clients(net)
    rng = random.Random(net.nodes)
    assert settles(net, time.time_ns())[1] is not None
    right = [row(name, net, fault_name, fault, rng) for fault_name, fault in FAULTS]
    statuses, stopped = clients.end()
    return all(right), f"{name}: lock ended with {statuses}, nodes with {stopped}"


print(f"load {os.getloadavg()[0]:.0f}", flush=True)
print(
    "| Network | Fault | Times | Last wrong grant after, median and most, ms | Each node lends after, median and most, ms"
    " | Longest gap between turns, ms; late turns | Longest loan, ms | Proved: recovers, lends, ms, the least | |\n"
    "|---|---|---|---|---|---|---|---|---|",
    flush=True,
)
results = [try_network(name, edges) for name, edges in NETWORKS]
for _, summary in results:
    print(summary)
sys.exit(0 if all(right for right, _ in results) else 1)
PYTHON
