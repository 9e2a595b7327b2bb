#!/usr/bin/env python3
"""What `build` and `fsck` tell on standard error of the folder of a build: nodes that have no journal where others have records, and journals of
another text; and that offers which are not there are refused.

    tests/outside/lost_journals.py --program PATH"""
import itertools
import os

import edge

NODES = 3
WORDS = ("one.c", "--nodes", str(NODES), "--dir", "none")
OTHER = b"journal 404 OtherSource node 0\nthe journals of that folder are of another text, nodes or quorums: this build needs a folder of its own (--dir)\n"


def lost(nodes):
    return b"".join(b"node %d has no journal, others have: what it had voted is not known\n" % node for node in nodes)


def is_unsettled(answer):
    """What is chosen in a room is not known any more: votes for it are gone."""
    return answer[0] == 4 and answer[2].startswith(b"journal 510 Unsettled room ")


def take_away(at, nodes, is_emptied):
    for node in nodes:
        path = at("none", f"node{node}.cf2")
        if is_emptied:
            edge.write(path, b"")
        else:
            os.remove(path)


def without(edges, nodes, is_emptied):
    """A folder of which the journals of these nodes are gone."""
    made, at = edges.folder()
    with made:
        edges.run(at, "build", *WORDS)
        take_away(at, nodes, is_emptied)
        told = lost(nodes) if len(nodes) < NODES else b""
        title = f"journals of {nodes} are {'empty' if is_emptied else 'taken away'}"
        answer = edges.run(at, "fsck", *WORDS)
        is_ok = answer[0] == 0 and answer[1].endswith(b"ok\n") and answer[2] == told
        edges.told(f"fsck: {title}", is_ok or is_unsettled(answer), answer)
        answer = edges.run(at, "build", *WORDS)
        edges.told(f"build: {title}", answer[0] in (0, 3) and answer[2].endswith(told) or is_unsettled(answer), answer)
        if answer[0] == 4:
            return
        answer = edges.run(at, "fsck", *WORDS)
        edges.told(f"fsck behind a build: {title}", answer[2] == b"", answer)


def main():
    edges = edge.Edge(__doc__)
    for count in range(NODES + 1):
        for nodes in itertools.combinations(range(NODES), count):
            for is_emptied in (False, True):
                without(edges, nodes, is_emptied)
    made, at = edges.folder()
    with made:
        edges.run(at, "build", *WORDS)
        edge.write(at("one.c"), edge.SEVEN + b" ")
        for command in ("build", "fsck"):
            answer = edges.run(at, command, *WORDS)
            edges.told(f"{command} of an edited text", answer == (4, b"", OTHER), answer)
        answer = edges.run(at, "build", "one.c", "--dir", "none", "--offers", "nowhere")
        edges.told("offers that are not there", answer == (2, b"", b"file nowhere\n"), answer)
        os.symlink("nowhere", at("link"))
        answer = edges.run(at, "build", "one.c", "--dir", "none", "--offers", "link")
        edges.told("offers that a link to nothing leads to", answer == (2, b"", b"file link\n"), answer)
    edges.end()


main()
