#!/usr/bin/env python3
"""An optimiser from outside: it reads a program's RTL, and writes offers of the four passes for `cfarm build --offers`.

    cfarm emit life.c --of rtl > life.rtl
    examples/optimisers/tidy.py life.rtl offers/node0
    cfarm build life.c --offers offers

It knows docs/FORMATS.md and docs/PASSES.md, and nothing of the farm's code. Whatever it writes, the farm's checks decide: an offer that
is wrong is ignored by name.

Pass 1 finds registers that hold constants, also behind branches that can go one way only. Pass 2 takes an operator or a load again
where its value still stands in a register that is wanted later anyway. Pass 3 splits registers into webs (the parts of a register's
life that no edge connects), lets both ends of a move share a place, and colours what is named most in loops first: r4 to r7 for what
lives over a call, any other register else, and slots, as few as will do, for the rest. Pass 4 lays the nodes out in chains, the edge
that is taken most first, so that a loop's test comes at its bottom. Time is n log n but for what is live at joins."""
import heapq
import os
import struct
import sys

WORD = 1 << 32
REGISTERS, KEPT = range(8), range(4, 8)
NOTHING, CONSTANT, MOVE, OPERATOR, LOAD, STORE, CALL, PUT, BRANCH, RETURN, LABEL, JUMP = range(12)
DIVISIONS = range(11, 15)


def signed(word):
    return word - WORD if word >> 31 else word


def divided(left, right):
    """C's quotient and remainder, where the quotient is an int."""
    if right == 0:
        return None
    quotient = abs(left) // abs(right) * (1 if (left < 0) == (right < 0) else -1)
    return (quotient, left - right * quotient) if -(1 << 31) <= quotient < WORD else None


def operated(code, words):
    """The word that an operator gives, or None where the machine's table has no answer."""
    x, y = words[0], words[-1]
    s, t = signed(x), signed(y)
    if code in DIVISIONS:
        found = divided(s, t) if code in (11, 13) else divided(x, y)
        if found is None or code in (11, 13) and not -(1 << 31) <= found[0] < 1 << 31:
            return None
        return found[code in (13, 14)] % WORD
    if code in range(18, 22):
        return None if y >= 32 else (x << y, x << y, s >> y, x >> y)[code - 18] % WORD
    simple = {
        1: -x, 2: -x, 3: ~x, 4: x == 0, 5: x + y, 6: x + y, 7: x - y, 8: x - y, 9: x * y, 10: x * y,
        15: x & y, 16: x | y, 17: x ^ y, 22: x == y, 23: x != y, 24: s < t, 25: x < y, 26: s <= t, 27: x <= y,
    }
    return int(simple[code]) % WORD


def holds(condition, words):
    x, y = words[0], words[-1]
    s, t = signed(x), signed(y)
    return (x != 0, x == y, x != y, s < t, x < y, s <= t, x <= y)[condition]


class Reader:
    """Numbers of bytes, the highest first."""

    def __init__(self, data):
        self.data, self.at = data, 0

    def bytes(self, count):
        self.at += count
        return self.data[self.at - count:self.at]

    def u8(self):
        return self.bytes(1)[0]

    def u16(self):
        return int.from_bytes(self.bytes(2), "big")

    def u32(self):
        return int.from_bytes(self.bytes(4), "big")

    def many(self, count):
        return tuple(self.u16() for _ in range(count))


class Node:
    """A node of RTL: what it is, what it names, what it reads, what it writes, and where it goes on."""

    __slots__ = ("kind", "named", "reads", "writes", "goes")

    def __init__(self, kind, named=0, reads=(), writes=None, goes=()):
        self.kind, self.named, self.reads, self.writes, self.goes = kind, named, reads, writes, goes

    def written(self):
        to = b"".join(map(u16, self.goes))
        reads = b"".join(map(u16, self.reads))
        target = b"" if self.writes is None else u16(self.writes)
        option = bytes([self.writes is not None])
        code, number = bytes([self.named & 255]), u16(self.named & 65535)
        return bytes([self.kind]) + {
            NOTHING: to,
            CONSTANT: target + struct.pack(">I", self.named) + to,
            MOVE: target + reads + to,
            OPERATOR: code + target + reads + to,
            LOAD: target + number + reads + to,
            STORE: number + reads + to,
            CALL: code + bytes([len(self.reads)]) + reads + option + target + to,
            PUT: reads + option + target + to,
            BRANCH: code + reads + to,
            RETURN: bytes([len(self.reads)]) + reads,
        }[self.kind]


def u16(number):
    return struct.pack(">H", number)


def arguments(code, is_condition):
    return 1 if code == 0 or not is_condition and code <= 4 else 2


def read_node(it):
    kind = it.u8()
    if kind == NOTHING:
        return Node(kind, goes=it.many(1))
    if kind == CONSTANT:
        target, word = it.u16(), it.u32()
        return Node(kind, word, (), target, it.many(1))
    if kind == MOVE:
        target = it.u16()
        return Node(kind, 0, it.many(1), target, it.many(1))
    if kind == OPERATOR:
        code, target = it.u8(), it.u16()
        return Node(kind, code, it.many(arguments(code, False)), target, it.many(1))
    if kind == LOAD:
        target, number = it.u16(), it.u16()
        return Node(kind, number, it.many(1), target, it.many(1))
    if kind == STORE:
        number = it.u16()
        return Node(kind, number, it.many(2), None, it.many(1))
    if kind == CALL:
        number, count = it.u8(), it.u8()
        reads = it.many(count)
        return Node(kind, number, reads, it.u16() if it.u8() else None, it.many(1))
    if kind == PUT:
        reads = it.many(1)
        return Node(kind, 0, reads, it.u16() if it.u8() else None, it.many(1))
    if kind == BRANCH:
        code = it.u8()
        return Node(kind, code, it.many(arguments(code, True)), None, it.many(2))
    return Node(RETURN, reads=it.many(it.u8()))


class Function:
    """A function of RTL."""

    def __init__(self, parameters, registers, entry, nodes):
        self.parameters, self.registers, self.entry, self.nodes = parameters, registers, entry, nodes

    def with_nodes(self, nodes):
        return Function(self.parameters, self.registers, self.entry, nodes)

    def written(self):
        head = bytes([2, len(self.parameters)]) + b"".join(map(u16, self.parameters))
        head += u16(self.registers) + u16(self.entry) + u16(len(self.nodes))
        return head + b"".join(node.written() for node in self.nodes)

    def feeders(self):
        """For each node, the nodes of which an edge comes in, one for each edge."""
        found = [[] for _ in self.nodes]
        for at, node in enumerate(self.nodes):
            for to in node.goes:
                found[to].append(at)
        return found

    def marked(self):
        """Whether a node is marked: the entry, and each that one lower node alone does not feed."""
        return [at == self.entry or len(it) != 1 or it[0] >= at for at, it in enumerate(self.feeders())]

    def live(self):
        """For each node, the registers that are read behind it before they are written, as the bits of a number."""
        before, feeders = [0] * len(self.nodes), self.feeders()
        waiting, waits = list(range(len(self.nodes))), [True] * len(self.nodes)
        while waiting:
            at = waiting.pop()
            waits[at] = False
            node, live = self.nodes[at], self.live_behind(before, at)
            if node.writes is not None:
                live &= ~(1 << node.writes)
            for register in node.reads:
                live |= 1 << register
            if live != before[at]:
                before[at] = live
                for it in feeders[at]:
                    if not waits[it]:
                        waits[it] = True
                        waiting.append(it)
        return before

    def live_behind(self, before, at):
        live = 0
        for to in self.nodes[at].goes:
            live |= before[to]
        return live

    def reached(self):
        """The nodes that the entry leads to, each before those that it alone leads to."""
        seen, order, waiting = {self.entry}, [], [self.entry]
        while waiting:
            at = waiting.pop()
            order.append(at)
            for to in self.nodes[at].goes:
                if to not in seen:
                    seen.add(to)
                    waiting.append(to)
        return order

    def weights(self):
        """How often each node is run, as far as loops tell: ten times for each loop that it lies in, at most 10,000."""
        weight = [1] * len(self.nodes)
        layers = [(self.reached(), 0, None)]
        while layers:
            nodes, depth, head = layers.pop()
            inside = set(nodes)
            for loop in loops(self.nodes, nodes, inside, head):
                for at in loop:
                    weight[at] *= 10
                if depth < 3:
                    entered = next((at for at in loop if at == self.entry or any(it not in loop for it in self.into(at))), loop[0])
                    layers.append((loop, depth + 1, entered))
        return weight

    def into(self, at):
        if not hasattr(self, "kept_feeders"):
            self.kept_feeders = self.feeders()
        return self.kept_feeders[at]


def loops(nodes, among, inside, head):
    """The strongly connected parts of these nodes that are loops, edges to the head left out (Tarjan 1972)."""
    index, low, stack, is_on, found = {}, {}, [], set(), []
    for root in among:
        if root in index:
            continue
        index[root] = low[root] = len(index)
        stack.append(root)
        is_on.add(root)
        way = [(root, iter(nodes[root].goes))]
        while way:
            at, goes = way[-1]
            to = next(goes, None)
            if to is None:
                way.pop()
                if way:
                    low[way[-1][0]] = min(low[way[-1][0]], low[at])
                if low[at] == index[at]:
                    part = []
                    while not part or part[-1] != at:
                        part.append(stack.pop())
                        is_on.discard(part[-1])
                    if len(part) > 1 or at in nodes[at].goes and at != head:
                        found.append(part)
            elif to in inside and to != head:
                if to not in index:
                    index[to] = low[to] = len(index)
                    stack.append(to)
                    is_on.add(to)
                    way.append((to, iter(nodes[to].goes)))
                elif to in is_on:
                    low[at] = min(low[at], index[to])
    return found


class Facts:
    """What is known before each node: a set that grows smaller where edges meet. A pass says what is known behind a node, and where that
    can go on. Nodes that no run reaches begin with nothing known, so that what leads out of them holds too."""

    def __init__(self, function):
        self.function, self.live, self.marked = function, function.live(), function.marked()
        self.before = [None] * len(function.nodes)
        self.waiting = []
        self.meet(function.entry, frozenset())
        self.settle(self.goes)
        feeders = function.feeders()
        for at, known in enumerate(self.before):
            if known is None and self.marked[at]:
                self.meet(at, frozenset())
            elif known is None and self.before[feeders[at][0]] is not None:
                self.meet(at, self.behind(feeders[at][0]))
        self.settle(lambda at: function.nodes[at].goes)

    def meet(self, at, known):
        known = frozenset(it for it in known if self.is_of_use(it, at)) if at != self.function.entry else frozenset()
        known = known if self.before[at] is None else known & self.before[at]
        if known != self.before[at]:
            self.before[at] = known
            heapq.heappush(self.waiting, at)

    def settle(self, goes):
        """Hands on what is known: to nodes that are not marked as `goes` says, to marked ones along the edges that can be taken."""
        while self.waiting:
            at = heapq.heappop(self.waiting)
            while self.waiting and self.waiting[0] == at:
                heapq.heappop(self.waiting)
            behind = self.behind(at)
            for to in goes(at):
                if not self.marked[to]:
                    self.before[to] = None
                    self.meet(to, behind)
                elif to in self.goes(at):
                    self.meet(to, behind)

    def are_live(self, registers, at):
        return all(self.live[at] >> it & 1 for it in registers)

    def rows(self, written):
        """The certificate: rows of what is known at marked nodes."""
        rows = [(at, sorted(map(written, self.before[at]))) for at in range(len(self.before)) if self.marked[at] and self.before[at]]
        return u16(len(rows)) + b"".join(u16(at) + u16(len(row)) + b"".join(row) for at, row in rows)


class Constants(Facts):
    """Pass 1: a fact is a register and its word."""

    def is_of_use(self, fact, at):
        return self.are_live(fact[:1], at)

    def words(self, at):
        """The words of what the node reads, where all are known."""
        known = dict(self.before[at])
        words = [known.get(it) for it in self.function.nodes[at].reads]
        return None if None in words or not words else words

    def word(self, at):
        """The word that the node writes, where that is known."""
        node = self.function.nodes[at]
        if node.kind == CONSTANT:
            return node.named
        words = self.words(at) if node.kind in (MOVE, OPERATOR) else None
        return words and (words[0] if node.kind == MOVE else operated(node.named, words))

    def behind(self, at):
        node, word = self.function.nodes[at], self.word(at)
        if node.writes is None:
            return self.before[at]
        kept = frozenset(it for it in self.before[at] if it[0] != node.writes)
        return kept if word is None else kept | {(node.writes, word)}

    def goes(self, at):
        node = self.function.nodes[at]
        words = self.words(at) if node.kind == BRANCH else None
        return node.goes if words is None else (node.goes[not holds(node.named, words)],)

    def node(self, at):
        """What the node becomes."""
        node, word, goes = self.function.nodes[at], self.word(at), self.goes(at)
        if node.kind == BRANCH and len(goes) == 1:
            return Node(NOTHING, goes=goes)
        return node if word is None else Node(CONSTANT, word, (), node.writes, node.goes)


class Equations(Facts):
    """Pass 2: an equation is a register and what it holds: an operator, a load or a register, by its code, what it names and reads."""

    def is_of_use(self, equation, at):
        return self.are_live((equation[0], *equation[3]), at)

    def goes(self, at):
        return self.function.nodes[at].goes

    def right(self, at):
        node = self.function.nodes[at]
        code = {OPERATOR: 0, LOAD: 1, MOVE: 2}.get(node.kind)
        return code if code is None else (code, node.named, node.reads)

    def behind(self, at):
        node, right = self.function.nodes[at], self.right(at)
        forgets = node.kind == CALL or node.kind == STORE
        known = self.before[at]
        if forgets:
            known = frozenset(it for it in known if it[1] != 1 or node.kind == STORE and it[2] != node.named)
        if node.writes is not None:
            known = frozenset(it for it in known if node.writes != it[0] and node.writes not in it[3])
            if right is not None and node.writes not in node.reads:
                known |= {(node.writes, *right)}
        return known

    def node(self, at):
        """What the node becomes: a move from a register that is wanted behind it anyway."""
        node, right = self.function.nodes[at], self.right(at)
        if right is None:
            return node
        wanted = self.function.live_behind(self.live, at)
        if node.kind == MOVE:
            if wanted >> node.reads[0] & 1:
                return node
            found = [it[3][0] for it in self.before[at] if it[:2] == (node.reads[0], 2)]
        else:
            found = [it[0] for it in self.before[at] if it[1:] == right]
        found = sorted(it for it in found if wanted >> it & 1 and it != node.writes)
        return Node(MOVE, 0, (found[0],), node.writes, node.goes) if found else node


def written_fact(fact):
    return u16(fact[0]) + struct.pack(">I", fact[1])


def written_equation(equation):
    register, code, named, reads = equation
    name = (bytes([named]), u16(named), b"")[code]
    return u16(register) + bytes([code]) + name + b"".join(map(u16, reads))


class Webs:
    """The parts of registers' lives that no edge connects, which of them are alive together, and how often each is named."""

    def __init__(self, function):
        self.function, self.live, self.marked = function, function.live(), function.marked()
        self.same, self.apart, self.crosses, self.uses = [], [], [], []
        self.before, self.written = [], []
        weights = function.weights()
        for at, node in enumerate(function.nodes):
            self.add(at, node)
        self.join_edges()
        self.gather(weights)

    def new(self):
        self.same.append(len(self.same))
        return len(self.same) - 1

    def add(self, at, node):
        """The webs before the node, and the one that it writes."""
        registers = bits(self.live[at])
        if self.marked[at]:
            self.before.append({it: self.new() for it in registers})
        else:
            behind = self.behind(self.function.into(at)[0])
            self.before.append({it: behind[it] for it in registers})
        self.written.append(None if node.writes is None else self.new())

    def behind(self, at):
        """The webs behind the node."""
        node = self.function.nodes[at]
        return self.before[at] if node.writes is None else {**self.before[at], node.writes: self.written[at]}

    def web(self, number):
        while self.same[number] != number:
            self.same[number] = self.same[self.same[number]]
            number = self.same[number]
        return number

    def join_edges(self):
        for at, node in enumerate(self.function.nodes):
            behind = self.behind(at)
            for to in node.goes:
                if self.marked[to]:
                    for register, number in self.before[to].items():
                        self.same[self.web(number)] = self.web(behind[register])
        entry = self.before[self.function.entry]
        self.parameters = [entry[it] if it in entry else self.new() for it in self.function.parameters]
        self.before = [{it: self.web(number) for it, number in webs.items()} for webs in self.before]
        self.written = [it if it is None else self.web(it) for it in self.written]
        self.parameters = [self.web(it) for it in self.parameters]

    def is_dropped(self, at):
        """Whether what the node writes is never read, and nothing else comes of it."""
        node = self.function.nodes[at]
        return node.kind in (CONSTANT, MOVE, OPERATOR, LOAD) and not self.function.live_behind(self.live, at) >> node.writes & 1

    def gather(self, weights):
        count = len(self.same)
        self.apart, self.crosses, self.uses, self.moves = [set() for _ in range(count)], [False] * count, [0] * count, []
        self.keep_apart([*self.parameters, *self.before[self.function.entry].values()])
        for at, node in enumerate(self.function.nodes):
            if self.is_dropped(at):
                continue
            for register in node.reads:
                self.uses[self.before[at][register]] += weights[at]
            behind = self.function.live_behind(self.live, at)
            stay = [web for it, web in self.before[at].items() if behind >> it & 1 and it != node.writes]
            if node.kind == CALL:
                for web in stay:
                    self.crosses[web] = True
            if node.writes is not None:
                web = self.written[at]
                self.uses[web] += weights[at]
                source = self.before[at][node.reads[0]] if node.kind == MOVE else None
                for it in stay:
                    if it not in (source, web):
                        self.apart[it].add(web)
                        self.apart[web].add(it)
                if source is not None:
                    self.moves.append((-weights[at], web, source))

    def keep_apart(self, webs):
        for one in webs:
            for other in webs:
                if one != other:
                    self.apart[one].add(other)

    def share(self):
        """Lets both ends of a move be one web, where they are never alive together and few others stand in the way."""
        for _, one, other in sorted(self.moves):
            one, other = self.web(one), self.web(other)
            if one == other or one in self.apart[other]:
                continue
            room = 4 if self.crosses[one] or self.crosses[other] else 8
            if sum(len(self.apart[it]) >= room for it in self.apart[one] | self.apart[other]) >= room:
                continue
            self.same[other] = one
            for it in self.apart[other]:
                self.apart[it].discard(other)
                self.apart[it].add(one)
            self.apart[one] |= self.apart[other]
            self.crosses[one] |= self.crosses[other]
            self.uses[one] += self.uses[other]


def bits(number):
    found = []
    while number:
        low = number & -number
        found.append(low.bit_length() - 1)
        number ^= low
    return found


class NoRegister(Exception):
    """A node has no register left to bring a slot's word through."""


class Allocation:
    """Pass 3: a place for each web, and the blocks. A place is a register, or 8 and a slot above."""

    def __init__(self, function):
        self.function, self.webs = function, Webs(function)
        self.webs.share()
        for spared in range(3):
            self.colour(spared)
            try:
                self.blocks = [self.block(at) for at in range(len(function.nodes))]
                return
            except NoRegister:
                pass
        raise NoRegister

    def colour(self, spared):
        """Gives out places; so many registers are left for slots' words."""
        webs, self.place = self.webs, {}
        tops = sorted({webs.web(it) for it in range(len(webs.same))}, key=lambda it: (-webs.uses[it], it))
        liked = {}
        for _, one, other in webs.moves:
            one, other = webs.web(one), webs.web(other)
            liked.setdefault(one, []).append(other)
            liked.setdefault(other, []).append(one)
        for web in tops:
            taken = {self.place[it] for it in webs.apart[web] if it in self.place}
            free = [it for it in (KEPT if webs.crosses[web] else REGISTERS) if it >= spared and it not in taken]
            wished = [self.place[it] for it in liked.get(web, ()) if self.place.get(it) in free]
            if wished or free:
                self.place[web] = wished[0] if wished else free[0]
            else:
                self.place[web] = next(it for it in range(8, 8 + len(tops)) if it not in taken)
        used = [it for it in self.place.values() if it >= 8]
        self.slots = max(used) - 7 if used else 0

    def of(self, web):
        return self.place[self.webs.web(web)]

    def places(self, at):
        """Each register that is live before the node, and its place."""
        return {it: self.of(web) for it, web in self.webs.before[at].items()}

    def block(self, at):
        """The moves before, the instruction, its places, and the moves after."""
        node, here = self.function.nodes[at], self.places(at)
        target = None if node.writes is None else self.of(self.webs.written[at])
        if node.kind == NOTHING or self.webs.is_dropped(at):
            return [], Node(NOTHING, goes=node.goes), []
        if node.kind == MOVE:
            source = here[node.reads[0]]
            return self.carried(target, source, here), Node(NOTHING, goes=node.goes), []
        if node.kind == CALL:
            return [], Node(CALL, node.named, tuple(here[it] for it in node.reads), target, node.goes), []
        before, brought = [], {}
        for register in node.reads:
            if here[register] >= 8 and register not in brought:
                brought[register] = self.free([*here.values(), *brought.values()])
                before.append((brought[register], here[register]))
        reads = tuple(brought.get(it, here[it]) for it in node.reads)
        if target is None or target < 8:
            return before, Node(node.kind, node.named, reads, target, node.goes), []
        live = self.function.live_behind(self.webs.live, at)
        through = self.free([place for it, place in here.items() if live >> it & 1])
        return before, Node(node.kind, node.named, reads, through, node.goes), [(target, through)]

    def carried(self, target, source, here):
        if target == source:
            return []
        if target < 8 or source < 8:
            return [(target, source)]
        through = self.free(here.values())
        return [(through, source), (target, through)]

    def free(self, taken):
        found = next((it for it in REGISTERS if it not in taken), None)
        if found is None:
            raise NoRegister
        return found

    def head(self):
        parameters = [self.of(it) for it in self.webs.parameters]
        return bytes([len(parameters)]) + b"".join(map(written_place, parameters)) + u16(self.slots)

    def written(self):
        head = bytes([3]) + self.head() + u16(self.function.entry) + u16(len(self.blocks))
        return head + b"".join(map(written_block, self.blocks))

    def rows(self):
        """The certificate: where each register is that is live before a marked node."""
        rows = []
        for at in range(len(self.blocks)):
            row = sorted(u16(it) + written_place(place) for it, place in self.places(at).items()) if self.webs.marked[at] else []
            if row:
                rows.append(u16(at) + u16(len(row)) + b"".join(row))
        return u16(len(rows)) + b"".join(rows)


def written_place(place):
    return bytes([0, place]) if place < 8 else bytes([1]) + u16(place - 8)


def written_moves(moves):
    return bytes([len(moves)]) + b"".join(written_place(to) + written_place(of) for to, of in moves)


def written_act(node):
    """An instruction of LTL or Linear but for where it goes on: registers have a byte, a call's places are written whole."""
    target = node.writes
    if node.kind == CALL:
        option = bytes([0]) if target is None else bytes([1]) + written_place(target)
        return bytes([CALL, node.named, len(node.reads)]) + b"".join(map(written_place, node.reads)) + option
    reads, to = bytes(node.reads), bytes([] if target is None else [target])
    return bytes([node.kind]) + {
        NOTHING: b"",
        CONSTANT: to + struct.pack(">I", node.named if node.kind == CONSTANT else 0),
        OPERATOR: bytes([node.named & 255]) + to + reads,
        LOAD: to + u16(node.named & 65535) + reads,
        STORE: u16(node.named & 65535) + reads,
        PUT: reads + bytes([target is not None]) + to,
        BRANCH: bytes([node.named & 255]) + reads,
        RETURN: bytes([len(reads)]) + reads,
    }[node.kind]


def written_block(block):
    before, node, after = block
    after = b"" if node.kind in (BRANCH, RETURN) else written_moves(after)
    return written_moves(before) + written_act(node) + b"".join(map(u16, node.goes)) + after


def order_of(function):
    """Pass 4: the nodes in chains; of the edges that need no jump where their ends stand together, the one taken most comes first."""
    weights, reached = function.weights(), function.reached()
    edges = []
    for place, at in enumerate(reached):
        goes = function.nodes[at].goes
        if goes and goes[-1] != function.entry:
            edges.append((-min(weights[at], weights[goes[-1]]), place, at, goes[-1]))
    first, last, after = {at: at for at in reached}, {at: at for at in reached}, {}
    for _, _, at, to in sorted(edges):
        if at in first and to in last and first[at] != to:
            after[at] = to
            head, tail = first.pop(at), last.pop(to)
            first[tail], last[head] = head, tail
    order = []
    for at in reached:
        at = at if at in last else None
        while at is not None:
            order.append(at)
            at = after.get(at)
    return order


def laid_out(allocation, order):
    """The code of the nodes in this order."""
    code, count = [], 0
    for place, at in enumerate(order):
        before, node, after = allocation.blocks[at]
        code.append(bytes([LABEL]) + u16(at))
        code += [bytes([MOVE]) + written_place(to) + written_place(of) for to, of in before]
        if node.kind != NOTHING:
            code.append(written_act(node) + (u16(node.goes[0]) if node.kind == BRANCH else b""))
        code += [bytes([MOVE]) + written_place(to) + written_place(of) for to, of in after]
        if node.goes and node.goes[-1] != (order[place + 1] if place + 1 < len(order) else None):
            code.append(bytes([JUMP]) + u16(node.goes[-1]))
    count = len(code)
    return bytes([4]) + allocation.head() + struct.pack(">I", count) + b"".join(code)


def offers_of(function):
    """The written offers of the four passes, and the function of Linear that they come to."""
    constants = Constants(function)
    folded = function.with_nodes([constants.node(at) for at in range(len(function.nodes))])
    equations = Equations(folded)
    shared = folded.with_nodes([equations.node(at) for at in range(len(folded.nodes))])
    allocation = Allocation(shared)
    order = order_of(shared)
    forms = [*(it.written() for it in (function, folded, shared, allocation)), laid_out(allocation, order)]
    certificates = (
        constants.rows(written_fact),
        equations.rows(written_equation),
        allocation.rows(),
        u16(len(order)) + b"".join(map(u16, order)),
    )
    return [bytes([form]) + forms[at] + forms[at + 1] + certificates[at] for at, form in enumerate((17, 18, 19, 4))], forms[4]


def read_function(it):
    it.u8()
    parameters = it.many(it.u8())
    registers, entry, count = it.u16(), it.u16(), it.u16()
    return Function(parameters, registers, entry, [read_node(it) for _ in range(count)])


def read_program(data):
    """The names and functions of a program in RTL."""
    it = Reader(data)
    if it.bytes(5) != b"CFP1\2":
        sys.exit("no program in RTL")
    for _ in range(it.u16()):
        it.u32()
        it.bytes(4 * it.u32())
    return [(it.bytes(it.u8()).decode("ascii"), read_function(it)) for _ in range(it.u8())]


def main():
    if len(sys.argv) != 3:
        sys.exit("usage: tidy.py PROGRAM.rtl FOLDER")
    program, folder = sys.argv[1:]
    with open(program, "rb") as file:
        functions = read_program(file.read())
    os.makedirs(folder, exist_ok=True)
    for name, function in functions:
        for number, offer in enumerate(offers_of(function)[0], 1):
            with open(os.path.join(folder, f"{name}.pass{number}"), "wb") as file:
                file.write(offer)


if __name__ == "__main__":
    main()
