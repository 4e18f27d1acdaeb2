#!/usr/bin/env bash
# Shows what faults do to nodes that run as processes. At each node two clients take the lock again and again, and under
# it add one to a number in a file that nothing else guards (bench/faulty_network.py). Nodes are stopped, killed and
# started again, their states are scrambled or cut, and junk and forged frames are sent into a link. Prints a table: for
# each fault, how long it took until every node had lent the lock again, the adds that went wrong and when the last one
# was, and whether every add was right from a second after the recovery on. Status 1 if one was not, or a node did not
# lend within 30 seconds.
#
#   bench/faults.sh               rings of 3, 4 and 8 nodes, each fault 3 times: some five minutes
#   bench/faults.sh short         a ring of 3, each fault once: half a minute
#   bench/faults.sh TIMES N..     rings of N nodes, each fault TIMES times
#
# The program is ./tokentree, or what TOKENTREE names. Needs python3.
set -euo pipefail
case ${1:-} in
'') set -- 3 3 4 8 ;;
short) set -- 1 3 ;;
esac
cd "$(dirname "$0")/.."
[ -n "${TOKENTREE:-}" ] || ./tokentree --build
program=$(realpath "${TOKENTREE:-crates/tokentree/out/tokentree}")
folder=$(mktemp -d)
trap 'rm -rf "$folder"' EXIT
PYTHONPATH=$PWD/bench PYTHONDONTWRITEBYTECODE=1 python3 - "$program" "$folder" "$@" << 'PYTHON'
import os, random, statistics, sys, time
from faulty_network import FAULTS, SECOND, Clients, Network, ring, settles, wrong_adds

program, folder, times, sizes = sys.argv[1], sys.argv[2], int(sys.argv[3]), [int(n) for n in sys.argv[4:]]


def try_fault(net, fault, rng):
    """What a fault did: the time until each node served, when adds went wrong, and the adds after the recovery."""
    net.adds()
    since = time.time_ns()
    fault(net, rng)
    adds, took = settles(net, since)
    time.sleep(2.5)
    adds = sorted(adds + net.adds(), key=lambda add: add[1])
    wrong = [add[1] - since for add in wrong_adds(adds)]
    later = [add for add in adds if took is not None and add[1] > since + took + SECOND]
    return took, wrong, later


def millis(nanoseconds):
    return f"{nanoseconds / 1e6:.0f}"


def row(net, name, fault, rng):
    """Tries a fault, prints its row of the table, and returns whether all was right."""
    tries = [try_fault(net, fault, rng) for _ in range(times)]
    took = [try_[0] for try_ in tries if try_[0] is not None]
    wrong = [at for try_ in tries for at in try_[1]]
    right = len(took) == times and not any(wrong_adds(try_[2]) for try_ in tries)
    count = sum(len(try_[2]) for try_ in tries)
    after = f"{millis(statistics.median(took))}, {millis(max(took))}" if took else "never"
    last = f"{len(wrong)}, {millis(max(wrong))}" if wrong else "none"
    print(f"| {net.nodes} | {name} | {times} | {after} | {last} | {count}, {'right' if right else 'WRONG'} |", flush=True)
    return right and count > 0


def try_ring(nodes):
    net = Network(program, folder, f"ring-{nodes}", ring(nodes))
    clients = Clients(net)
    rng = random.Random(nodes)
    assert settles(net, time.time_ns())[1] is not None
    right = [row(net, name, fault, rng) for name, fault in FAULTS]
    statuses, stopped = clients.end()
    return all(right), f"ring of {nodes}: lock ended with {statuses}, nodes with {stopped}"


print(f"load {os.getloadavg()[0]:.0f}", flush=True)
print("| Nodes | Fault | Times | Each node lends again after, median and most, ms | Wrong adds, the last after, ms"
      " | Adds from a second later on |\n|---|---|---|---|---|---|", flush=True)
results = [try_ring(nodes) for nodes in sizes]
for _, summary in results:
    print(summary)
sys.exit(0 if all(right for right, _ in results) else 1)
PYTHON
