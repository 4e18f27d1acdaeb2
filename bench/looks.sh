#!/usr/bin/env bash
# Measures what it costs a node to note its turns, and to be looked at. Prints
#
#   note     the processor time of a turn's note, in nanoseconds: the code of `turn_watch` without its contracts, compiled by rustc
#   idle     the processor time of a ring of three that nobody uses, in percent of a core a node: without a looker, and with
#            one that looks at each node each second
#   stuck    64 lookers at each node, which read nothing and stay, again each half second: the grants a second meanwhile
#            beside those without, and the descriptors of a node before and after
#   crowd    of 200 lookers that come while a node's process is stopped, how many are shown its line once it goes on (64)
#
# Status 1 if a note takes 100 ns or more, a descriptor stays, or not exactly 64 are shown the line.
#
#   bench/looks.sh [SECONDS]      each part for SECONDS, 20 by default
#
# The program is ./tokentree, or what TOKENTREE names. Needs python3 and rustc.
set -euo pipefail
cd "$(dirname "$0")/.."
[ -n "${TOKENTREE:-}" ] || ./tokentree --build
program=$(realpath "${TOKENTREE:-crates/tokentree/out/tokentree}")
folder=$(mktemp -d)
trap 'rm -rf "$folder"' EXIT
PYTHONPATH=$PWD/bench PYTHONDONTWRITEBYTECODE=1 python3 - "$program" "$folder" "${1:-20}" << 'PYTHON'
import os, re, resource, signal, subprocess, sys, time
from faulty_network import Network, connect, ring

program, folder, seconds = sys.argv[1], sys.argv[2], int(sys.argv[3])
TICKS = os.sysconf("SC_CLK_TCK")


def plain(name):
    """A file of `turn_watch` as Rust: without ghost lines and without clauses."""
    text = open(f"crates/turn_watch/src/{name}.rt").read()
    text = re.sub(r"(?m)^\s*ghost .*;\n", "", text).replace("crate::", "super::").replace("#[derive(Drop)]\n", "")
    out, rest = "", text
    while found := re.search(r"(?m)^\s*(ensures|requires)\b[^{]*\{", rest):
        out, rest, depth = out + rest[: found.start()], rest[found.end() :], 1
        while depth:
            depth += {"{": 1, "}": -1}.get(rest[0], 0)
            rest = rest[1:]
    return out + rest


def note():
    modules = "".join(f"mod {name} {{\n{plain(name)}\n}}\n" for name in ("turns", "loans", "links", "rounds", "notes"))
    main = """
fn main() {
    let mut notes = notes::TurnNotes::begin(0, 2_200);
    for turn in 0..20_000_000u64 {
        let desk = loans::DeskSight { has_granted: turn % 7 == 0, lends: turn % 3 == 0 };
        notes.turn_ended(std::hint::black_box(turn * 2_100 + turn % 13 * 20), std::hint::black_box(desk));
        let machine = rounds::MachineSight { port: 1, value: (turn / 7 % 100) as u16 };
        notes.note_machine(std::hint::black_box(Some(machine)));
        let id = notes.next_link(std::hint::black_box(64));
        let sight = links::LinkSight { is_up: turn % 5_000 > 0, made: turn / 5_000 };
        notes.note_link(id, std::hint::black_box(sight), turn * 2_100);
    }
    println!("{}", notes.turns().late + notes.loans().count + notes.link(5).since + notes.rounds().count + notes.limit());
}
"""
    with open(f"{folder}/note.rs", "w") as file:
        file.write("#![allow(dead_code)]\n" + modules + main)
    subprocess.run(["rustc", "-O", "--edition", "2021", "-o", f"{folder}/note", f"{folder}/note.rs"], check=True)
    before = resource.getrusage(resource.RUSAGE_CHILDREN).ru_utime
    subprocess.run([f"{folder}/note"], check=True, stdout=subprocess.DEVNULL)
    return (resource.getrusage(resource.RUSAGE_CHILDREN).ru_utime - before) / 20_000_000 * 1e9


def cpu(net):
    """The processor time of all nodes so far, in seconds."""
    def of(process):
        fields = open(f"/proc/{process.pid}/stat").read().rsplit(")", 1)[1].split()
        return (int(fields[11]) + int(fields[12])) / TICKS
    return sum(of(process) for process in net.processes.values())


def idle(net, looks):
    """Percent of a core for a node, over some seconds, with this many looks at each node in each second."""
    before, began = cpu(net), time.time()
    for _ in range(seconds):
        for _ in range(looks):
            net.looks()
        time.sleep(1)
    return 100 * (cpu(net) - before) / (time.time() - began) / net.nodes


def grants(net, until):
    """How many loans a second node 1 gave a client that asks again and again."""
    count, began = 0, time.time()
    with connect(f"{net.run}/desk-1.sock") as desk:
        while time.time() < until:
            desk.sendall(b"lock\n")
            assert desk.recv(64) == b"granted\n"
            desk.sendall(b"unlock\n")
            assert desk.recv(64) == b"released\n"
            count += 1
    return count / (time.time() - began)


def descriptors(net):
    return [len(os.listdir(f"/proc/{process.pid}/fd")) for process in net.processes.values()]


def stuck(net):
    """Grants a second while 64 lookers at each node read nothing, and come again each half second."""
    pid = os.fork()
    if pid == 0:
        kept = []
        while True:
            kept = [connect(f"{net.run}/look-{node}.sock") for node in range(net.nodes) for _ in range(64)]
            time.sleep(0.5)
    try:
        return grants(net, time.time() + seconds)
    finally:
        os.kill(pid, signal.SIGKILL)
        os.waitpid(pid, 0)


def crowd(net):
    """How many of 200 lookers that come while node 0 is stopped are shown its line."""
    os.kill(net.processes[0].pid, signal.SIGSTOP)
    lookers = [connect(f"{net.run}/look-0.sock") for _ in range(200)]
    os.kill(net.processes[0].pid, signal.SIGCONT)
    def whole(looker):
        with looker, looker.makefile() as lines:
            return lines.read().endswith("}\n")
    return sum(whole(looker) for looker in lookers[:128])


nanos = note()
print(f"note {nanos:.1f} ns", flush=True)
net = Network(program, folder, "looks", ring(3))
net.looks()
time.sleep(1)
print(f"idle {idle(net, 0):.2f} % of a core a node; looked at each second {idle(net, 1):.2f} %", flush=True)
before, alone, with_stuck = descriptors(net), grants(net, time.time() + seconds), stuck(net)
time.sleep(0.5)
after, late = descriptors(net), [look["turns"]["late"] for look in net.looks()]
print(f"stuck {with_stuck:.0f} grants a second, {alone:.0f} without; descriptors {before} before, {after} after", flush=True)
print(f"late turns {late}, longest gaps {[look['turns']['longest_us'] for look in net.looks()]} us", flush=True)
shown = crowd(net)
print(f"crowd {shown} of the first 128 that came at once are shown the line", flush=True)
stopped = net.stop(range(net.nodes))
print(f"nodes ended with {stopped}; sockets left {[name for name in os.listdir(net.run) if name.endswith('.sock')]}")
sys.exit(0 if nanos < 100 and before == after and shown == 64 and not any(stopped) else 1)
PYTHON
