#!/usr/bin/env python3
"""Journals of the first version: what they are migrated to, and how they are made of new ones. It stands on the form alone
(docs/FORMATS.md, "A journal"), and is read by tests/outside/hostile.py and tests/outside/kills.py.

    tests/outside/aged.py FOLDER           makes old journals of the new ones in a folder, which must have no summary yet
    tests/outside/aged.py --migrated FILE  prints the new journal, in hex, that an old one becomes, or the number of its fault
    tests/outside/aged.py --rows FILE      reads rows `nodes promise accept node old new fault`, in hex with `-` for none, and tells how many agree; the digest
                                           that is asked for is 32 times the byte that is there most often"""
import os
import sys

ROOMS = 1 << 16
HEAD = 40
SIZES = {2: 2, 3: 3, 4: 2, 5: 3, 6: 7}


def u16(data, at):
    return int.from_bytes(data[at:at + 2], "big")


def block(body):
    return b"\x01" + len(body).to_bytes(4, "big") + body


def is_first_form(nodes, promise, accept):
    return nodes % 2 == 1 and promise == accept == (nodes + 1) // 2


def old_head(nodes, promise, accept, node, digest):
    if is_first_form(nodes, promise, accept):
        return b"CFJ1" + bytes([nodes, node]) + digest
    return b"CFJF" + bytes([nodes, promise, accept, node]) + digest


def bodies_of(data, at):
    """The bodies behind a header and where the closed gate stands; none where one is cut."""
    bodies = []
    while data[at:at + 1] == b"\x01":
        size = int.from_bytes(data[at + 1:at + 5], "big")
        body = data[at + 5:at + 5 + size]
        if len(data) < at + 5 or len(body) != size:
            return None
        bodies.append(body)
        at += 5 + size
    return (bodies, at) if at < len(data) else None


def is_of_form(body, most):
    """Whether a body is a record's, of one of the codes up to this."""
    if len(body) < 3 or not 1 <= body[0] <= most:
        return False
    return body[0] == 1 or len(body) == 3 + SIZES[body[0]]


class Room:
    """What the records so far leave of a room."""

    def __init__(self):
        self.offer, self.started, self.promised, self.vote, self.proposed = None, 0, 0, (0, 0), 0

    def takes(self, nodes, node, body):
        """Whether a record of the first version may follow; it is taken in."""
        code, ballot = body[0], u16(body, 3)
        if code == 1:
            right, self.offer = self.offer is None, body if self.offer is None else self.offer
            return right
        if code == 2:
            right = ballot % nodes == node and ballot > self.started
            self.started = ballot
        elif code == 3:
            right = 1 <= ballot == self.started and self.proposed != ballot and body[5] < nodes
            self.proposed = ballot
        elif code == 4:
            right = ballot > self.promised
            self.promised = ballot
        else:
            right = 1 <= ballot >= self.promised and self.vote[0] != ballot and body[5] < nodes
            self.promised, self.vote = max(ballot, self.promised), (ballot, body[5])
        return right

    def blocks(self, number):
        """What is put down of it in a new journal."""
        found = b"" if self.offer is None else block(self.offer)
        if self.started or self.promised:
            ballots = b"".join(it.to_bytes(2, "big") for it in (number, self.started, self.promised, self.vote[0]))
            found += block(b"\x06" + ballots + bytes([self.vote[1]]))
        return found


def migrated(header, old):
    """The new journal that an old one becomes under a header (nodes, promise, accept, node, digest), or the number of its fault."""
    nodes, promise, accept, node, digest = header
    if old[:4] == b"CFJ1":
        is_none = len(old) < 39
    else:
        is_none = old[:4] != b"CFJF" or len(old) < 41 or is_first_form(*old[4:7])
    if is_none:
        return 402
    head = old_head(*header)
    if old[:len(head)] != head:
        return 404
    found = bodies_of(old, len(head))
    if found is None or not all(is_of_form(body, 5) for body in found[0]):
        return 403
    rooms = {}
    for body in found[0]:
        if not rooms.setdefault(u16(body, 1), Room()).takes(nodes, node, body):
            return 403
    return b"CFJ2" + bytes([nodes, promise, accept, node]) + digest + b"".join(rooms[it].blocks(it) for it in sorted(rooms)) + b"\x00"


def header_of(new):
    """The header of a new journal."""
    return (*new[4:8], new[8:HEAD])


def old_header_of(old):
    """The header of an old journal."""
    if old[:4] == b"CFJF":
        return (*old[4:8], old[8:40])
    half = old[4] // 2 + 1
    return (old[4], half, half, old[5], old[6:38])


def aged(new):
    """The old journal with the records of a new one, which has no summary."""
    bodies, _ = bodies_of(new, HEAD)
    if new[:4] != b"CFJ2" or not all(is_of_form(body, 5) for body in bodies):
        raise ValueError("no new journal, or one with a summary")
    return old_head(*header_of(new)) + b"".join(map(block, bodies)) + b"\x00"


def spent(old):
    return b"\x00" + old[1:]


def new_in(folder, node):
    return os.path.join(folder, f"node{node}.cf2")


def old_in(folder, node):
    return os.path.join(folder, f"node{node}.cfj")


def read(path):
    with open(path, "rb") as file:
        return file.read()


def age(folder, which=None):
    """Makes old journals of the new ones of a folder, or of those of some nodes."""
    for node in range(7):
        path = new_in(folder, node)
        if os.path.exists(path) and (which is None or node in which):
            found = read(path)
            if len(found) > HEAD:
                with open(old_in(folder, node), "wb") as file:
                    file.write(aged(found))
            os.remove(path)


def told(found):
    return str(found) if isinstance(found, int) else found.hex()


def rows(path):
    """How many rows are as they say."""
    right = count = 0
    with open(path, encoding="utf-8") as file:
        for line in file:
            if line.startswith("#"):
                continue
            *numbers, old, new, fault = line.split()
            old, count = bytes.fromhex(old), count + 1
            sizes = tuple(map(int, numbers))
            at = 6 if is_first_form(*sizes[:3]) else 8
            digest = max(old[at:at + 32], key=old[at:at + 32].count, default=0)
            found = told(migrated((*sizes, bytes([digest]) * 32), old))
            right += found == (new if fault == "-" else fault)
    print(f"{right} of {count} agree")
    return 0 if right == count else 1


def main(words):
    if words[:1] == ["--rows"] and len(words) == 2:
        return rows(words[1])
    if words[:1] == ["--migrated"] and len(words) == 2:
        old = read(words[1])
        print(told(migrated(old_header_of(old), old)))
        return 0
    if len(words) == 1 and not words[0].startswith("-"):
        age(words[0])
        return 0
    sys.exit(__doc__)


if __name__ == "__main__":
    sys.exit(main(sys.argv[1:]))
