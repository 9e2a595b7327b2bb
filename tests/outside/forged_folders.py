#!/usr/bin/env python3
"""Folders whose journals are forged: records in order, and offers that their passes accept, of this text and of another one. What `fsck` says of them
is what `build` comes to, and what `build` links is verified.

    tests/outside/forged_folders.py --program PATH [--trials N] [--seed S]

The journals are written here, from docs/FORMATS.md alone. An offer of the other text never goes on from one of this text, nor this one's from that."""
import collections
import hashlib
import json
import os
import random

import aged
import edge
import looks

NODES, ACCEPT = 3, 2
OTHER = b"int main(void){return 8;}\n"
HEAD = b"CFJ2" + bytes([NODES, 2, ACCEPT])
UNCHAINED = b"link 602 Unchained in main\n"
Room = collections.namedtuple("Room", "source is_chosen bodies")


def chain_of(edges, text):
    """The four offers that a build of a text chooses."""
    made, at = edges.folder()
    with made:
        edge.write(at("one.c"), text)
        _, out, _ = edges.run(at, "build", "one.c", "--dir", "none")
        found = []
        for room, node in enumerate(json.loads(out)["functions"][0]["rooms"]):
            bodies, _ = aged.bodies_of(edge.content(at("none", f"node{node}.cf2")), aged.HEAD)
            found.append(next(it[3:] for it in bodies if it[0] == 1 and aged.u16(it, 1) == room))
        return found


def body(code, room, *numbers, rest=b""):
    return bytes([code]) + b"".join(it.to_bytes(2, "big") for it in (room, *numbers)) + rest


def room_of(draw, room, chains):
    """What the nodes put down of a room: nothing, or an offer with perhaps a vote or with a quorum of votes."""
    bodies = [[] for _ in range(NODES)]
    kind, source, value = draw.choice(["none", "vote", "chosen", "chosen", "chosen", "chosen"]), draw.choice([0, 0, 0, 1]), draw.randrange(NODES)
    if kind == "none":
        return Room(None, False, bodies)
    bodies[value].append(body(1, room, rest=chains[source][room]))
    owner = draw.randrange(NODES)
    ballot = NODES * draw.randrange(1, 4) + owner
    bodies[owner].append(body(2, room, ballot))
    promised = draw.sample(range(NODES), draw.choice([2, 3]))
    for node in promised:
        bodies[node].append(body(4, room, ballot))
    bodies[owner].append(body(3, room, ballot, rest=bytes([value])))
    for node in promised if kind == "chosen" else promised[:1]:
        bodies[node].append(body(5, room, ballot, rest=bytes([value])))
    return Room(source, kind == "chosen", bodies)


def forged(draw, folder, digest, chains):
    """A folder with such journals; whether what is chosen breaks the chain, and whether all is chosen."""
    rooms = [room_of(draw, room, chains) for room in range(4)]
    for node in range(NODES):
        blocks = b"".join(aged.block(it) for room in rooms for it in room.bodies[node])
        edge.write(os.path.join(folder, f"node{node}.cf2"), HEAD + bytes([node]) + digest + blocks + b"\x00")
    before, is_broken = 0, False
    for room in rooms:
        source = room.source if room.is_chosen else None
        is_broken |= None not in (before, source) and before != source
        before = source
    return is_broken, all(room.is_chosen for room in rooms)


def spoiled(draw, folder):
    """One byte of one journal is changed, or it is cut there."""
    path = os.path.join(folder, f"node{draw.randrange(NODES)}.cf2")
    found = bytearray(edge.content(path))
    at = draw.randrange(len(found))
    if draw.random() < 0.5:
        del found[at:]
    else:
        found[at] ^= 1 << draw.randrange(8)
    edge.write(path, bytes(found))


def tried(edges, draw, chains):
    made, at = edges.folder()
    with made:
        is_broken, is_whole = forged(draw, at("none"), hashlib.sha256(edge.SEVEN).digest(), chains)
        is_spoiled = draw.random() < 0.2
        if is_spoiled:
            spoiled(draw, at("none"))
        words = ("one.c", "--dir", "none")
        told = edges.run(at, "fsck", *words)
        built = edges.run(at, "build", *words, "--bundle", "b")
        if built[0] == 0:
            verified = edges.run(at, "verify", "one.c", "--program", "none/linked.cfp", "--bundle", "b")
            edges.told("what was built is verified", verified[0] == 0, verified)
        else:
            edges.told("nothing is put", not os.path.exists(at("none", "linked.cfp")) and not os.path.exists(at("b")), built)
        if told[0] == 4 and told[2] != UNCHAINED:
            edges.told("fsck and build refuse it alike", is_spoiled and told == built, (told, built))
            return "refused"
        if is_spoiled:
            edges.told("a spoiled folder", told[0] in (0, 4) and built[0] in (0, 3, 4), (told, built))
            return "spoiled"
        lines = looks.looked(at("none"), ["main"], (NODES, 2, ACCEPT), hashlib.sha256(edge.SEVEN).digest()) if not is_whole else None
        if is_broken:
            edges.told("fsck of a broken chain", told[0] == 4 and told[2] == UNCHAINED and not told[1].endswith(b"ok\n"), told)
            edges.told("build of a broken chain", built[0] in (3, 4) and (built[0] == 3 or built[2] == UNCHAINED), built)
            return "broken"
        edges.told("fsck of a chain", told[0] == 0 and told[1].endswith(b"ok\n"), told)
        edges.told("build of a chain", built[0] == 0 or not is_whole and built[2] in (UNCHAINED, b"undecided\n"), (built, lines))
        return "chained" if is_whole else "open"


def main():
    edges = edge.Edge(__doc__, trials=500)
    chains = [chain_of(edges, edge.SEVEN), chain_of(edges, OTHER)]
    draw = random.Random(edges.given.seed)
    print(dict(collections.Counter(tried(edges, draw, chains) for _ in range(edges.given.trials))))
    edges.end()


if __name__ == "__main__":
    main()
