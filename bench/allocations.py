#!/usr/bin/env python3
"""Times the check of register allocation, and its optimiser, on large functions.

    bench/allocations.py                      20,000 nodes and 1,000 registers, median of three runs
    bench/allocations.py --nodes 5000         fewer nodes
    bench/allocations.py --only moves         one of the inputs alone

Inputs of the check: `plain`, 40 equations filled in at each node and two moves in each block; `moves`, 256 equations
and 255 moves before and behind each block's instruction, the most that a block can have. Inputs of the
optimiser: `chain`, each register defined and used soon after, with loops; `live`, almost each register live
at almost each node; `tangle`, each fourth node a branch to a node drawn by chance. Build the program first:
`bench/measure.py`. Milliseconds are those of the calls alone.
"""
import argparse
import os
import random
import statistics
import subprocess
import tempfile

ROOT = os.path.dirname(os.path.dirname(os.path.abspath(__file__)))
PROGRAM = os.path.join(ROOT, "crates", "measure", "out", "measure")
ADD = 6


def u16(number):
    return number.to_bytes(2, "big")


def slot(number):
    return b"\x01" + u16(number)


def in_register(number):
    return b"\x00" + bytes([number])


def moves(steps):
    return bytes([len(steps)]) + b"".join(target + source for target, source in steps)


def head(language, size, nodes):
    """No parameters, so many registers or slots, entry 0."""
    return bytes([language, 0]) + u16(size) + u16(0) + u16(nodes)


def touched(count, size):
    """So many moves that leave every slot as it was."""
    steps = []
    for k in range(count // 2):
        steps += [(in_register(1), slot(k % size)), (slot(k % size), in_register(1))]
    return steps + [(in_register(1), slot(0))] * (count % 2)


def checked(nodes, registers, equations, before, after):
    """Each node doubles the word of so many nodes before, the first are constants; each word is stored to its register's
    slot. So at each node the equations of the latest are filled in, and no node has a row."""
    code, blocks = [], []
    for node in range(nodes - 1):
        target, source = node % registers, (node - equations) % registers
        stored = [(slot(target), in_register(0))] + touched(after - 1, registers)
        if node < equations:
            code.append(b"\x01" + u16(target) + node.to_bytes(4, "big") + u16(node + 1))
            loaded, body = touched(before, registers), b"\x01\x00" + node.to_bytes(4, "big")
        else:
            code.append(sum_of(target, source, source, node))
            loaded = touched(before - 1, registers) + [(in_register(0), slot(source))]
            body = b"\x03" + bytes([ADD, 0, 0, 0])
        blocks.append(moves(loaded) + body + u16(node + 1) + moves(stored))
    code.append(b"\x09\x00")
    blocks.append(b"\x00\x09\x00")
    return b"\x13" + head(2, registers, nodes) + b"".join(code) + head(3, registers, nodes) + b"".join(blocks) + u16(0)


def proposed(nodes, registers, instruction):
    """The instructions, with an output that says nothing."""
    code = [instruction(node) for node in range(nodes - 1)] + [b"\x09\x01" + u16(0)]
    output = head(3, 0, 1) + b"\x00\x09\x00"
    return b"\x13" + head(2, registers, nodes) + b"".join(code) + output + u16(0)


def sum_of(target, first, second, node):
    return b"\x03" + bytes([ADD]) + u16(target) + u16(first) + u16(second) + u16(node + 1)


def branch(register, taken, node):
    return b"\x08\x00" + u16(register) + u16(taken) + u16(node + 1)


def chain(nodes, registers):
    def instruction(node):
        if node % 16 == 15:
            return branch(node % registers, node - 15, node)
        return sum_of(node % registers, (node - 1) % registers, (node - 5) % registers, node)

    return proposed(nodes, registers, instruction)


def live(nodes, registers):
    def instruction(node):
        if node % 16 == 15:
            return branch(node % registers, max(0, node - 500), node)
        return sum_of(node * 7 % registers, node * 13 % registers, node * 29 % registers, node)

    return proposed(nodes, registers, instruction)


def tangle(nodes, registers):
    words = random.Random(1)

    def instruction(node):
        if node % 4 == 3:
            return branch(words.randrange(registers), words.randrange(nodes), node)
        first, second = words.randrange(registers), words.randrange(registers)
        return sum_of(words.randrange(registers), first, second, node)

    return proposed(nodes, registers, instruction)


def times(offer):
    """What the program says of an offer, and the microseconds of each of its calls."""
    with tempfile.NamedTemporaryFile() as file:
        file.write(offer)
        file.flush()
        done = subprocess.run([PROGRAM, "allocation", file.name], capture_output=True, check=True)
    micros = {}
    for line in done.stderr.decode().splitlines():
        name, number = line.rsplit(" ", 1)
        micros[name] = int(number)
    return done.stdout.decode().strip(), micros


def report(name, offer, calls, runs):
    seen = [times(offer) for _ in range(runs)]
    parts = [f"{call} {statistics.median(m.get(call, 0) for _, m in seen) / 1000:.1f} ms" for call in calls]
    print(f"{name}: {len(offer) / 1e6:.1f} MB, {', '.join(parts)}; {seen[0][0]}", flush=True)


def main():
    parser = argparse.ArgumentParser()
    parser.add_argument("--nodes", type=int, default=20000)
    parser.add_argument("--registers", type=int, default=1000)
    parser.add_argument("--runs", type=int, default=3)
    parser.add_argument("--only")
    given = parser.parse_args()
    size = (given.nodes, given.registers)
    of_check = ["reading", "check"]
    of_oracle = ["oracle", "check of the oracle's"]
    inputs = {
        "plain": (lambda: checked(*size, 40, 1, 1), of_check),
        "moves": (lambda: checked(*size, 256, 255, 255), of_check),
        "chain": (lambda: chain(*size), of_oracle),
        "live": (lambda: live(*size), of_oracle),
        "tangle": (lambda: tangle(*size), of_oracle),
    }
    for name, (offer, calls) in inputs.items():
        if given.only in (None, name):
            report(name, offer(), calls, given.runs)


if __name__ == "__main__":
    main()
