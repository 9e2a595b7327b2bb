#!/usr/bin/env python3
"""Draws LTL functions at random, settles each, and reads both codes by a reading of its own: what `cfarm settle` prints
has to be a layout of the function that was given.

    tests/outside/settled.py               200 functions of up to 40 nodes, from a fixed seed
    tests/outside/settled.py --count 1000  as many as are asked for
    tests/outside/settled.py --busy 100    settles one function of 40 nodes so many times while every processor is busy: each run
                                           has to end with `agreed 3`, and how many layouts were agreed on is told

A layout lists nodes, the entry first, none twice, with all successors of each that is listed; the code is for each of them
its label, its first moves, its instruction (none for one that does nothing), its last moves, and a jump to its successor,
or to the second of a branch, unless that node comes next. Parameters and slots are the function's.
"""
import argparse
import multiprocessing
import os
import random
import subprocess
import sys
import tempfile

ROOT = os.path.dirname(os.path.dirname(os.path.dirname(os.path.realpath(__file__))))
ONE_ARGUMENT_OPERATORS, OPERATORS = range(1, 5), range(1, 28)
NONZERO, CONDITIONS = 0, range(7)


class Reading:
    """The parts of bytes, one behind the other."""

    def __init__(self, data):
        self.data, self.at = data, 0

    def number(self, width):
        if self.at + width > len(self.data):
            raise ValueError("the bytes end too early")
        self.at += width
        return int.from_bytes(self.data[self.at - width:self.at], "big")

    def optional(self, read):
        flag = self.number(1)
        if flag > 1:
            raise ValueError(f"a flag is {flag}")
        return read() if flag else None

    def register(self):
        number = self.number(1)
        if number > 7:
            raise ValueError(f"register {number}")
        return number

    def location(self):
        kind = self.number(1)
        if kind > 1:
            raise ValueError(f"a location of kind {kind}")
        return ("slot", self.number(2)) if kind else ("register", self.register())

    def move(self):
        return "move", self.location(), self.location()

    def registers(self, count):
        return [self.register() for _ in range(count)]

    def instruction(self, code):
        """What LTL and Linear share: an instruction without where it goes on."""
        if code == 1:
            return "constant", self.register(), self.number(4)
        if code == 3:
            operator = self.number(1)
            return "operator", operator, self.register(), self.registers(1 if operator in ONE_ARGUMENT_OPERATORS else 2)
        if code == 4:
            return "load", self.register(), self.number(2), self.register()
        if code == 5:
            return "store", self.number(2), self.register(), self.register()
        if code == 6:
            called = self.number(1)
            arguments = [self.location() for _ in range(self.number(1))]
            return "call", called, arguments, self.optional(self.location)
        if code == 7:
            return "put", self.register(), self.optional(self.register)
        if code == 8:
            condition = self.number(1)
            return "branch", condition, self.registers(1 if condition == NONZERO else 2)
        if code == 9:
            return "return", self.optional(self.register)
        raise ValueError(f"code {code}")

    def head(self, tag):
        if self.number(1) != tag:
            raise ValueError("another first byte")
        return [self.location() for _ in range(self.number(1))], self.number(2)

    def end(self):
        if self.at != len(self.data):
            raise ValueError("bytes are left over")


def read_ltl(data):
    """Parameters and slots, the entry, and the blocks: moves, an instruction or none, moves, successors."""
    it = Reading(data)
    head, entry, blocks = it.head(3), it.number(2), []
    for _ in range(it.number(2)):
        before = [it.move() for _ in range(it.number(1))]
        code = it.number(1)
        instruction = None if code == 0 else it.instruction(code)
        after = []
        if code == 8:
            successors = [it.number(2), it.number(2)]
        elif code == 9:
            successors = []
        else:
            successors = [it.number(2)]
            after = [it.move() for _ in range(it.number(1))]
        blocks.append((before, instruction, after, successors))
    it.end()
    return head, entry, blocks


def read_linear(data):
    it = Reading(data)
    head, code = it.head(4), []
    for _ in range(it.number(4)):
        kind = it.number(1)
        if kind == 2:
            code.append(it.move())
        elif kind == 8:
            code.append((*it.instruction(kind), it.number(2)))
        elif kind in (10, 11):
            code.append(("label" if kind == 10 else "jump", it.number(2)))
        else:
            code.append(it.instruction(kind))
    it.end()
    return head, code


def stretch(node, block, following):
    """A node's code, where this node comes behind it."""
    before, instruction, after, successors = block
    code = [("label", node), *before]
    if instruction is not None and instruction[0] == "branch":
        code.append((*instruction, successors[0]))
    elif instruction is not None:
        code.append(instruction)
    code += after
    if successors and successors[-1] != following:
        code.append(("jump", successors[-1]))
    return code


def fault_of_layout(given, printed):
    """What is wrong with the printed code as a layout of the function, or None."""
    head, entry, blocks = read_ltl(given)
    linear_head, code = read_linear(printed)
    if linear_head != head:
        return "other parameters or slots"
    order = [part[1] for part in code if part[0] == "label"]
    if not order or order[0] != entry:
        return "the entry does not come first"
    if len(set(order)) != len(order):
        return "a node comes twice"
    if any(node >= len(blocks) for node in order):
        return "a label that is no node"
    listed = set(order)
    if any(successor not in listed for node in order for successor in blocks[node][3]):
        return "a successor does not come"
    wanted = []
    for place, node in enumerate(order):
        wanted += stretch(node, blocks[node], order[place + 1] if place + 1 < len(order) else None)
    return None if wanted == code else "other code than its blocks'"


def u16(number):
    return number.to_bytes(2, "big")


def drawn_location(words, slots):
    if slots and words.random() < 0.4:
        return b"\x01" + u16(words.randrange(slots))
    return bytes([0, words.randrange(8)])


def drawn_moves(words, slots):
    count = words.choice((0, 0, 1, 2))
    moves = [drawn_location(words, slots) + bytes([0, words.randrange(8)]) for _ in range(count)]
    return bytes([count]) + b"".join(moves)


def drawn_block(words, slots, nodes):
    register = lambda: bytes([words.randrange(8)])
    node = lambda: u16(words.randrange(nodes))
    optional = lambda part: b"\x01" + part if words.random() < 0.5 else b"\x00"
    code = words.choice((0, 1, 3, 4, 5, 6, 7, 8, 8, 8, 9))
    operator, condition = words.choice(OPERATORS), words.choice(CONDITIONS)
    arguments = register() if operator in ONE_ARGUMENT_OPERATORS else register() + register()
    tested = register() if condition == NONZERO else register() + register()
    given = words.randrange(4)
    body = {
        0: b"",
        1: register() + words.randrange(1 << 32).to_bytes(4, "big"),
        3: bytes([operator]) + register() + arguments,
        4: register() + u16(words.randrange(1024)) + register(),
        5: u16(words.randrange(1024)) + register() + register(),
        6: bytes([words.randrange(64), given]) + b"".join(drawn_location(words, slots) for _ in range(given)) + optional(drawn_location(words, slots)),
        7: register() + optional(register()),
        8: bytes([condition]) + tested + node() + node(),
        9: optional(register()),
    }[code]
    behind = b"" if code in (8, 9) else node() + drawn_moves(words, slots)
    return drawn_moves(words, slots) + bytes([code]) + body + behind


def drawn_function(words, nodes):
    slots = words.choice((0, 3))
    parameters = words.sample(range(8), words.randrange(4))
    head = b"\x03" + bytes([len(parameters)]) + b"".join(bytes([0, it]) for it in parameters) + u16(slots)
    blocks = [drawn_block(words, slots, nodes) for _ in range(nodes)]
    return head + u16(words.randrange(nodes)) + u16(nodes) + b"".join(blocks)


def settled(program, folder, given):
    """The printed code, or what was told instead."""
    path = os.path.join(folder, "drawn.ltl")
    with open(path, "wb") as file:
        file.write(given)
    done = subprocess.run([program, "settle", path], stdout=subprocess.PIPE, stderr=subprocess.PIPE, text=True)
    lines = done.stdout.splitlines()
    if done.returncode != 0 or len(lines) != 2 or lines[1] != "agreed 3":
        return None, f"status {done.returncode}: {done.stderr.strip()}"
    return bytes.fromhex(lines[0]), None


def read_all(program, count):
    words, wrong, sizes = random.Random(1), 0, 0
    with tempfile.TemporaryDirectory() as folder:
        for number in range(count):
            given = drawn_function(words, words.randrange(1, 41))
            printed, told = settled(program, folder, given)
            fault = told or fault_of_layout(given, printed)
            sizes += printed is not None and sum(part[0] == "label" for part in read_linear(printed)[1]) > 2
            if fault:
                wrong += 1
                print(f"function {number}, {given.hex()}: {fault}")
    print(f"{count} functions, {sizes} of them laid out with more than two nodes, {wrong} wrong")
    return wrong


def work():
    while True:
        pass


def settle_busy(program, count):
    given = drawn_function(random.Random(3), 40)
    workers = [multiprocessing.Process(target=work, daemon=True) for _ in range(os.cpu_count() or 1)]
    for worker in workers:
        worker.start()
    layouts, wrong = set(), 0
    with tempfile.TemporaryDirectory() as folder:
        for number in range(count):
            printed, told = settled(program, folder, given)
            fault = told or fault_of_layout(given, printed)
            layouts.add(printed)
            if fault:
                wrong += 1
                print(f"run {number}: {fault}")
    for worker in workers:
        worker.kill()
    print(f"{count} runs beside {len(workers)} busy processes, {len(layouts)} layouts, {wrong} wrong")
    return wrong


def main():
    words = argparse.ArgumentParser(description=__doc__.splitlines()[0])
    words.add_argument("--count", type=int, default=200)
    words.add_argument("--busy", type=int)
    words.add_argument("--program", default=os.path.join(ROOT, "crates/cfarm/out/cfarm"))
    given = words.parse_args()
    if not os.path.exists(given.program):
        sys.exit("build the program first: ./cfarm --help")
    wrong = settle_busy(given.program, given.busy) if given.busy else read_all(given.program, given.count)
    return 1 if wrong else 0


if __name__ == "__main__":
    sys.exit(main())
