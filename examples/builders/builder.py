"""What a builder in Python reads: functions of LTL, beside those of RTL, which examples/optimisers/tidy.py reads. It knows docs/FORMATS.md."""
import os
import sys

sys.path.insert(0, os.path.join(os.path.dirname(os.path.dirname(os.path.realpath(__file__))), "optimisers"))
import tidy  # noqa: E402


def read_place(it):
    """A register, or a slot and 8 more."""
    return 8 + it.u16() if it.u8() else it.u8()


def read_moves(it):
    return [(read_place(it), read_place(it)) for _ in range(it.u8())]


def read_act(it, kind, ways):
    """An instruction of this kind, behind its code, and so many nodes or labels behind it."""
    named, reads, target = 0, (), None
    if kind in (tidy.OPERATOR, tidy.CALL, tidy.BRANCH):
        named = it.u8()
    if kind in (tidy.CONSTANT, tidy.OPERATOR, tidy.LOAD):
        target = it.u8()
    if kind in (tidy.LOAD, tidy.STORE):
        named = it.u16()
    if kind == tidy.CONSTANT:
        named = it.u32()
    if kind == tidy.CALL:
        reads = tuple(read_place(it) for _ in range(it.u8()))
        target = read_place(it) if it.u8() else None
    else:
        reads = tuple(it.bytes(counted(kind, named, it)))
    if kind == tidy.PUT and it.u8():
        target = it.u8()
    return tidy.Node(kind, named, reads, target, it.many(ways))


def counted(kind, named, it):
    """How many registers an instruction reads that is no call."""
    if kind in (tidy.OPERATOR, tidy.BRANCH):
        return tidy.arguments(named, kind == tidy.BRANCH)
    return it.u8() if kind == tidy.RETURN else {tidy.LOAD: 1, tidy.STORE: 2, tidy.PUT: 1}.get(kind, 0)


def read_block(it):
    before, kind = read_moves(it), it.u8()
    node = read_act(it, kind, {tidy.BRANCH: 2, tidy.RETURN: 0}.get(kind, 1))
    return before, node, [] if node.kind in (tidy.BRANCH, tidy.RETURN) else read_moves(it)


class Blocks:
    """A function of LTL: its blocks, and its graph."""

    def __init__(self, it):
        it.u8()
        begun = it.at
        for _ in range(it.u8()):
            read_place(it)
        it.u16()
        self.written_head = it.data[begun:it.at]
        entry, count = it.u16(), it.u16()
        self.blocks = [read_block(it) for _ in range(count)]
        self.graph = tidy.Function((), 0, entry, [node for _, node, _ in self.blocks])

    def head(self):
        return self.written_head
