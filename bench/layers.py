#!/usr/bin/env python3
"""Compares `tokentree simulate --layers` with the definitions of the proof on generated worlds.

The evaluator below is written from specs/ alone, and shares nothing with the program: goodness and stability by the
existence of a boundary and of a payload, the tour by its recursion on the tree, distances by walks. A world is written by
harms, one for each field: settled ones, settled ones with a few fields drawn again, and drawn ones.

usage: bench/layers.py PROGRAM [WORLDS] [SEED]
"""
import random
import subprocess
import sys
import tempfile
from collections import Counter
from pathlib import Path


class Network:
    """A network, with its distances, true parents and tour."""

    def __init__(self, nodes, root, capacity, edges):
        self.nodes, self.root, self.capacity, self.edges = nodes, root, capacity, edges
        self.near = [sorted(w for w in range(nodes) if (v, w) in edges or (w, v) in edges) for v in range(nodes)]
        self.counter = 2 * capacity + 3
        self.ring = 6 * (nodes - 1) + 1
        # A node's distance is the least number of steps after which a walk from the root may be there.
        self.distance = [None] * nodes
        there = {root}
        for steps in range(nodes):
            for v in there:
                if self.distance[v] is None:
                    self.distance[v] = steps
            there = {w for v in there for w in self.near[v]}
        self.parent = [
            next((w for w in self.near[v] if self.distance[w] + 1 == self.distance[v]), None) for v in range(nodes)
        ]
        self.tour = self.whole_tour()

    def children(self, v):
        return [c for c in range(self.nodes) if self.parent[c] == v]

    def through(self, v, children):
        stops = []
        for c in children:
            stops += [(v, c)] + self.below(c, v) + [(c, v)]
        return stops

    def below(self, v, came_from):
        children = self.children(v)
        return self.through(v, [c for c in children if c > came_from] + [c for c in children if c < came_from])

    def whole_tour(self):
        first, *others = self.children(self.root)
        return [(first, self.root)] + self.through(self.root, others) + [(self.root, first)] + self.below(first, self.root)

    def text(self):
        edges = ", ".join(f"[{u}, {v}]" for u, v in self.edges)
        return (
            f"nodes = {self.nodes}\nroot = {self.root}\ncapacity = {self.capacity}\nlease = 0\nedges = [{edges}]\n"
        )


def is_good(ring, modulus):
    """Some values equal to the head's, and then only values that are one less."""
    head = ring[0]
    return any(
        all(x == head for x in ring[:k]) and all((x + 1) % modulus == head for x in ring[k:])
        for k in range(len(ring) + 1)
    )


class World:
    """A state of all nodes and links. A payload is a distance, a parent and a ring value."""

    def __init__(self, net):
        self.net = net
        pairs = [(v, w) for v in range(net.nodes) for w in net.near[v]]
        self.own = {}
        self.numbers = {}
        self.staged = {}
        self.copy = {}
        self.value = {}
        self.link = {pair: [] for pair in pairs}
        self.lent = [None] * net.nodes
        self.pairs = pairs

    def is_stable(self, u, v):
        seq, last = self.numbers[u, v][0], self.numbers[v, u][1]
        out = [item for item in self.link[u, v] if item]
        back = [item for item in self.link[v, u] if item]
        ring = [seq] + [frame[0] for frame in reversed(out)] + [last] + [frame[1] for frame in reversed(back)]
        said = [(frame[0], frame[2]) for frame in out] + [(last, self.copy[v, u])]
        others = [payload for _, payload in said] + [None]
        return is_good(ring, self.net.counter) and any(
            all(payload == (self.staged[u, v] if number == seq else other) for number, payload in said)
            for other in others
        )

    def written(self):
        """Each node of which a distance and a parent are written somewhere, with these."""
        for v in range(self.net.nodes):
            yield v, self.own[v]
        for v, w in self.pairs:
            yield v, self.staged[v, w][:2]
            yield v, self.copy[w, v][:2]

    def is_at_stage(self, k):
        real = self.net.distance
        return all(d == real[v] if real[v] < k else k <= d for v, (d, _) in self.written())

    def is_tree_reached(self):
        return all((d, p) == (self.net.distance[v], self.net.parent[v]) for v, (d, p) in self.written())

    def is_ring_good(self):
        tour = self.net.tour
        ring = []
        for (before, here), (_, onward) in zip(tour, tour[1:] + tour[:1]):
            ring += [self.value[here, before], self.staged[here, onward][2], self.copy[onward, here][2]]
        return is_good(ring, self.net.ring)

    def is_privileged(self, v):
        tree = [w for w in self.net.near[v] if self.own[v][1] == w or self.copy[v, w][1] == v]
        special = tree[0] if tree and v == self.net.root else None
        return any((self.value[v, w] == self.copy[v, w][2]) == (w == special) for w in tree)

    def layers(self):
        last = max(self.net.distance) + 1
        stable = sum(self.is_stable(u, v) for u, v in self.pairs)
        stage = max(k for k in range(last + 1) if self.is_at_stage(k))
        tree, ring = self.is_tree_reached(), self.is_ring_good()
        loans = all(self.lent[v] is None or self.is_privileged(v) for v in range(self.net.nodes))
        word = {True: "yes", False: "no"}
        return [
            f"links {stable} of {len(self.pairs)} stable",
            f"distances right up to stage {stage} of {last}",
            f"tree {word[tree]}",
            f"ring {word[ring]}",
            f"loans {word[loans]}",
            f"legitimate {word[stable == len(self.pairs) and tree and ring and loans]}",
        ]

    def harms(self):
        lines = []

        def payload(p):
            return f"{p[0]} {'none' if p[1] is None else p[1]} {p[2]}"

        for v in range(self.net.nodes):
            d, p = self.own[v]
            lines.append(f"harm own {v} {d} {'none' if p is None else p}")
            if self.lent[v] is not None:
                lines.append(f"harm desk {v} {self.lent[v]} 0 no")
        for v, w in self.pairs:
            seq, last = self.numbers[v, w]
            lines.append(f"harm counters {v} {w} {seq} {last}")
            lines.append(f"harm staged {v} {w} {payload(self.staged[v, w])}")
            lines.append(f"harm copy {v} {w} {payload(self.copy[v, w])}")
            lines.append(f"harm value {v} {w} {self.value[v, w]}")
            for item in self.link[v, w]:
                lines.append(f"harm frame {v} {w} {item[0]} {item[1]} {payload(item[2])}" if item else f"harm junk {v} {w}")
        return "".join(line + "\n" for line in lines)


def drawn_network(draw):
    nodes = draw.randint(2, 7)
    edges = {(draw.randrange(v), v) for v in range(1, nodes)}
    for _ in range(draw.randint(0, nodes)):
        u, v = draw.sample(range(nodes), 2)
        if (u, v) not in edges and (v, u) not in edges:
            edges.add((u, v))
    return Network(nodes, draw.randrange(nodes), draw.randint(1, 4), sorted(edges))


class Drawing:
    """Draws fields of a world in their ranges."""

    def __init__(self, draw, net):
        self.draw, self.net = draw, net

    def parent(self):
        return self.draw.choice([None] + list(range(self.net.nodes)))

    def own(self):
        return (self.draw.randint(0, self.net.nodes), self.parent())

    def payload(self):
        return self.own() + (self.draw.randrange(self.net.ring),)

    def number(self):
        return self.draw.randrange(self.net.counter)

    def frame(self):
        return (self.number(), self.number(), self.payload())

    def field(self, world):
        """One field of a world is drawn again."""
        v, w = self.draw.choice(world.pairs)
        match self.draw.randrange(9):
            case 0:
                world.own[v] = self.own()
            case 1:
                world.numbers[v, w] = (self.number(), world.numbers[v, w][1])
            case 2:
                world.numbers[v, w] = (world.numbers[v, w][0], self.number())
            case 3:
                world.staged[v, w] = self.payload()
            case 4:
                world.copy[v, w] = self.payload()
            case 5:
                world.value[v, w] = self.draw.randrange(self.net.ring)
            case 6:
                world.lent[v] = self.draw.randrange(65536)
            case 7:
                if len(world.link[v, w]) < self.net.capacity:
                    place = self.draw.randint(0, len(world.link[v, w]))
                    world.link[v, w].insert(place, self.draw.choice([None, self.frame()]))
            case 8:
                world.copy[v, w] = world.staged[w, v]


def drawn_world(draw, net):
    """A world of which each field is drawn."""
    drawing, world = Drawing(draw, net), World(net)
    for v in range(net.nodes):
        world.own[v] = drawing.own()
        world.lent[v] = draw.choice([None, None, draw.randrange(65536)])
    for pair in world.pairs:
        world.numbers[pair] = (drawing.number(), drawing.number())
        world.staged[pair] = drawing.payload()
        world.copy[pair] = drawing.payload()
        world.value[pair] = draw.randrange(net.ring)
        world.link[pair] = [
            draw.choice([None, drawing.frame()]) for _ in range(draw.randint(0, net.capacity))
        ]
    return world


def settled_world(draw, net):
    """A world whose links are stable, whose tree is reached, and whose token ring is good."""
    drawing, world = Drawing(draw, net), World(net)
    truth = [(net.distance[v], net.parent[v]) for v in range(net.nodes)]
    ring = {pair: draw.randrange(net.ring) for pair in world.pairs}
    copied = {(w, v): draw.randrange(net.ring) for v, w in world.pairs}
    for v in range(net.nodes):
        world.own[v] = truth[v]
    for pair in world.pairs:
        world.value[pair] = draw.randrange(net.ring)
    # The three values of each leg, one value up to a boundary and the one before it after that.
    head, boundary = draw.randrange(net.ring), draw.randint(1, 3 * len(net.tour))
    for i, ((before, here), (_, onward)) in enumerate(zip(net.tour, net.tour[1:] + net.tour[:1])):
        values = [head if 3 * i + j < boundary else (head - 1) % net.ring for j in range(3)]
        world.value[here, before], ring[here, onward], copied[onward, here] = values
    for v, w in world.pairs:
        world.staged[v, w] = truth[v] + (ring[v, w],)
        world.copy[w, v] = truth[v] + (copied[w, v],)
    # Of each link the number, and the one before it if what was copied is not what is staged, or else either.
    seq, last = {}, {}
    for v, w in world.pairs:
        seq[v, w] = drawing.number()
        is_new = world.copy[w, v] == world.staged[v, w] and draw.random() < 0.7
        last[w, v] = seq[v, w] if is_new else (seq[v, w] - 1) % net.counter
    for v, w in world.pairs:
        world.numbers[v, w] = (seq[v, w], last[v, w])
    for v, w in world.pairs:
        # Frames on their way to w: the acknowledgement is what v has accepted, or the number before w's.
        for place in range(draw.randint(0, net.capacity)):
            if draw.random() < 0.3:
                world.link[v, w].append(None)
            elif last[w, v] == seq[v, w] or place == 0 and draw.random() < 0.5:
                number = last[w, v]
                payload = world.staged[v, w] if number == seq[v, w] else world.copy[w, v]
                world.link[v, w].append((number, (seq[w, v] - 1) % net.counter if draw.random() < 0.5 else last[v, w], payload))
            else:
                world.link[v, w].append((seq[v, w], last[v, w], world.staged[v, w]))
    if draw.random() < 0.5:
        privileged = [v for v in range(net.nodes) if world.is_privileged(v)]
        for v in privileged:
            world.lent[v] = draw.randrange(65536)
    return world


def generated(draw, net):
    """A settled world, the same with a few fields drawn again, or one that is all drawn."""
    kind = draw.randrange(10)
    if kind == 0:
        return drawn_world(draw, net)
    world = settled_world(draw, net)
    for _ in range(draw.randint(1, 3) if kind > 4 else 0):
        Drawing(draw, net).field(world)
    return world


def main():
    program = Path(sys.argv[1]).resolve()
    worlds = int(sys.argv[2]) if len(sys.argv) > 2 else 1000
    draw = random.Random(int(sys.argv[3]) if len(sys.argv) > 3 else 1)
    seen, unlike = Counter(), 0
    with tempfile.TemporaryDirectory() as folder:
        file = Path(folder) / "network.toml"
        for number in range(worlds):
            net = drawn_network(draw)
            world = generated(draw, net)
            file.write_text(net.text())
            done = subprocess.run(
                [program, "simulate", file, "-", "--layers"], input=world.harms(), capture_output=True, text=True, check=False
            )
            want = world.layers()
            found = done.stdout.splitlines()[-len(want):]
            links = want[0].split()
            stages = want[1].split()
            seen["links all" if links[1] == links[3] else "links not all"] += 1
            seen["stage last" if stages[5] == stages[7] else "stage not last"] += 1
            seen.update(want[2:])
            if done.returncode != 0 or found != want:
                unlike += 1
                print(f"world {number}: status {done.returncode}\n{net.text()}{world.harms()}wanted {want}\nfound {found}")
    for name, count in sorted(seen.items()):
        print(f"{name}: {count}")
    print(f"worlds {worlds} unlike {unlike}")
    return 1 if unlike or worlds == 0 else 0


if __name__ == "__main__":
    sys.exit(main())
