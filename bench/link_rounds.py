#!/usr/bin/env python3
"""Shows why the token needs three delays where it turns back. Goes through every run of one edge, with frames that are
sent again, lost or late, and prints what the frames do that come.

    bench/link_rounds.py [CAPACITY]    capacity 3

A frame *acknowledges* if it makes the receiver's number move, and *brings news* if it is accepted. A number takes what
is present before the frame. So if a frame with the token also acknowledges, the number goes out without the token, which
then needs one exchange more.

An edge is *in turn* if one side has accepted all that the other sent, and the other has not. From there on each frame
does both or nothing. An edge that is not in turn may get there, and then stays so.
"""
import collections
import sys

CAPACITY = int(sys.argv[1]) if len(sys.argv) > 1 else 3
COUNTER = 2 * CAPACITY + 3

# A port: its number, and the last number that it accepted. An edge: its two ports, and what is under way from each.
Edge = collections.namedtuple("Edge", "ports links")


def taken(port, frame):
    """The port after a frame, and whether the frame acknowledged and brought news."""
    (number, last), (sent, acknowledged) = port, frame
    moves = acknowledged == number
    return ((number + moves) % COUNTER, sent), (moves, sent != last)


def with_item(pair, side, item):
    return (item, pair[1]) if side == 0 else (pair[0], item)


def next_edges(edge):
    """Each edge after one event, with what a frame that came did."""
    for side in (0, 1):
        link, other = edge.links[side], 1 - side
        if len(link) < CAPACITY:
            yield edge._replace(links=with_item(edge.links, side, (*link, edge.ports[side]))), None
        for place in range(len(link)):
            yield edge._replace(links=with_item(edge.links, side, link[:place] + link[place + 1 :])), None
        if link:
            port, did = taken(edge.ports[other], link[0])
            yield Edge(with_item(edge.ports, other, port), with_item(edge.links, side, link[1:])), did


def shifted(edge):
    """The same edge with both numbers 0: only differences matter."""
    numbers = [port[0] for port in edge.ports]

    def shift(frame, side):
        return (frame[0] - numbers[side]) % COUNTER, (frame[1] - numbers[1 - side]) % COUNTER

    return Edge(
        tuple(shift(port, side) for side, port in enumerate(edge.ports)),
        tuple(tuple(shift(frame, side) for frame in link) for side, link in enumerate(edge.links)),
    )


def runs_from(first):
    """How many edges runs reach, and the kinds of frames that come in them."""
    seen, waiting, kinds = {first}, collections.deque([first]), set()
    while waiting:
        for edge, did in next_edges(waiting.popleft()):
            kinds.add(did)
            edge = shifted(edge)
            if edge not in seen:
                seen.add(edge)
                waiting.append(edge)
    return len(seen), kinds - {None}


NAMES = {
    (True, True): "acknowledge and bring news",
    (True, False): "acknowledge alone",
    (False, True): "bring news alone",
    (False, False): "do nothing",
}
BEFORE = COUNTER - 1
print("| An edge with empty links | Edges that runs reach | Frames that come |\n|---|---|---|")
for name, ports in [
    ("in turn", ((0, 0), (0, BEFORE))),
    ("each side has accepted all", ((0, 0), (0, 0))),
    ("each side has still to accept", ((0, BEFORE), (0, BEFORE))),
]:
    count, kinds = runs_from(Edge(ports, ((), ())))
    print(f"| {name} | {count} | {', '.join(NAMES[kind] for kind in NAMES if kind in kinds)} |")
