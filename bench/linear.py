#!/usr/bin/env python3
"""Times runs of Linear programs beside the same work in Lua 5.4 and Python 3, and beside the same interpreter
written in Rust (`linear_twin.rs`, built by `rustc -O`).

    bench/linear.py            a counting loop, a sieve and a recursion, median of five runs
    bench/linear.py --runs 1   one run each

Seconds of Linear are those of the call `linear::run`, of the twin those of its own call, of Lua and Python
those of their own clocks around the program's work. A ratio is the other's time by ours.
"""
import argparse
import os
import statistics
import subprocess
import sys
import tempfile

from loops import LUA_COUNTING, LUA_RECURSION, LUA_SIEVE, lua, run, told

ROOT = os.path.dirname(os.path.dirname(os.path.abspath(__file__)))
ADD, SUB = 6, 8
NONZERO, LESS, AT_MOST = 0, 4, 6


def u16(number):
    return number.to_bytes(2, "big")


def u32(number):
    return number.to_bytes(4, "big")


def register(name):
    return bytes([int(name[1:])])


def location(name):
    return b"\x00" + register(name) if name[0] == "r" else b"\x01" + u16(int(name[1:]))


def constant(target, word):
    return b"\x01" + register(target) + u32(word)


def move(target, source):
    return b"\x02" + location(target) + location(source)


def operate(op, target, left, right):
    return b"\x03" + bytes([op]) + register(target) + register(left) + register(right)


def load(target, index):
    return b"\x04" + register(target) + u16(0) + register(index)


def store(index, source):
    return b"\x05" + u16(0) + register(index) + register(source)


def call(function_, argument, target):
    return b"\x06" + bytes([function_, 1]) + location(argument) + b"\x01" + location(target)


def branch(condition, names, label_):
    return b"\x08" + bytes([condition]) + b"".join(map(register, names)) + u16(label_)


def give(name):
    return b"\x09\x01" + register(name)


def label(number):
    return b"\x0a" + u16(number)


def goto(number):
    return b"\x0b" + u16(number)


def function(name, parameters, slots, code):
    head = bytes([len(name)]) + name + b"\x04" + bytes([len(parameters)]) + b"".join(map(location, parameters))
    return head + u16(slots) + u32(len(code)) + b"".join(code)


def program(cells, functions):
    globals_ = u16(1) + u32(cells) + u32(0) if cells else u16(0)
    return b"CFP1\x04" + globals_ + bytes([len(functions)]) + b"".join(functions)


def counting(turns):
    return program(0, [function(b"main", [], 0, [
        constant("r0", 0),
        constant("r1", turns),
        constant("r2", 1),
        constant("r3", 0),
        label(0),
        branch(AT_MOST, ("r1", "r0"), 1),
        operate(ADD, "r3", "r3", "r0"),
        operate(ADD, "r0", "r0", "r2"),
        goto(0),
        label(1),
        give("r3"),
    ])])


def sieve(size, turns):
    # r0 turn, r1 turns, r2 one, r3 size, r4 i, r5 j, r6 zero or the cell, r7 count
    return program(size, [function(b"main", [], 0, [
        constant("r0", 0),
        constant("r1", turns),
        constant("r2", 1),
        constant("r3", size),
        constant("r7", 0),
        label(0),
        branch(AT_MOST, ("r1", "r0"), 9),
        # all cells become 0
        constant("r6", 0),
        constant("r4", 0),
        label(1),
        branch(AT_MOST, ("r3", "r4"), 2),
        store("r4", "r6"),
        operate(ADD, "r4", "r4", "r2"),
        goto(1),
        label(2),
        # each i from 2 on that is not crossed out is counted, and crosses out its multiples
        constant("r4", 2),
        label(3),
        branch(AT_MOST, ("r3", "r4"), 6),
        load("r6", "r4"),
        branch(NONZERO, ("r6",), 5),
        operate(ADD, "r7", "r7", "r2"),
        operate(ADD, "r5", "r4", "r4"),
        label(4),
        branch(AT_MOST, ("r3", "r5"), 5),
        store("r5", "r2"),
        operate(ADD, "r5", "r5", "r4"),
        goto(4),
        label(5),
        operate(ADD, "r4", "r4", "r2"),
        goto(3),
        label(6),
        operate(ADD, "r0", "r0", "r2"),
        goto(0),
        label(9),
        give("r7"),
    ])])


def recursion(number):
    main = function(b"main", [], 0, [constant("r0", number), call(1, "r0", "r0"), give("r0")])
    fib = function(b"fib", ["r0"], 2, [
        constant("r1", 2),
        branch(LESS, ("r0", "r1"), 0),
        move("s0", "r0"),
        constant("r1", 1),
        operate(SUB, "r0", "r0", "r1"),
        call(1, "r0", "r0"),
        move("s1", "r0"),
        move("r0", "s0"),
        constant("r1", 2),
        operate(SUB, "r0", "r0", "r1"),
        call(1, "r0", "r0"),
        move("r1", "s1"),
        operate(ADD, "r0", "r0", "r1"),
        label(0),
        give("r0"),
    ])
    return program(0, [main, fib])


PYTHON_COUNTING = """
def work(turns):
    i = total = 0
    while i < turns:
        total = (total + i) & 0xffffffff
        i = i + 1
    return total
"""

PYTHON_SIEVE = """
def work(size, turns):
    cells = [0] * size
    count = turn = 0
    while turn < turns:
        i = 0
        while i < size:
            cells[i] = 0
            i = i + 1
        i = 2
        while i < size:
            if cells[i] == 0:
                count = count + 1
                j = i + i
                while j < size:
                    cells[j] = 1
                    j = j + i
            i = i + 1
        turn = turn + 1
    return count
"""

PYTHON_RECURSION = """
def fib(n):
    return n if n < 2 else fib(n - 1) + fib(n - 2)
def work(n):
    return fib(n)
"""

ROWS = (
    ("counting", counting, LUA_COUNTING, PYTHON_COUNTING, (50_000_000,)),
    ("sieve", sieve, LUA_SIEVE, PYTHON_SIEVE, (65_536, 100)),
    ("recursion", recursion, LUA_RECURSION, PYTHON_RECURSION, (32,)),
)


def python(text, words):
    tail = f"import time\nstart = time.process_time()\nresult = work(*{words})\nprint(time.process_time() - start, f'ended {{result}}', sep='\\t')\n"
    return told(["python3", "-"], text + tail)


def main():
    words = argparse.ArgumentParser(description=__doc__.splitlines()[0])
    words.add_argument("--runs", type=int, default=5)
    words.add_argument("--program", default=os.path.join(ROOT, "crates/measure/out/measure"))
    given = words.parse_args()
    if not os.path.exists(given.program):
        sys.exit("build the program first: bench/measure.py")
    with tempfile.TemporaryDirectory() as scratch:
        twin = os.path.join(scratch, "linear_twin")
        subprocess.run(["rustc", "-O", "--edition", "2024", "-o", twin, os.path.join(ROOT, "bench/linear_twin.rs")], check=True)
        heads = ("Linear", "twin", "Lua", "Python")
        print(f"{'program':10} " + " ".join(f"{head + ' s':>9}" for head in heads) + " " + " ".join(f"{head + '/ours':>12}" for head in heads[1:]))
        for name, make, lua_text, python_text, sizes in ROWS:
            path = os.path.join(scratch, f"{name}.cfp")
            with open(path, "wb") as file:
                file.write(make(*sizes))
            kinds = [[], [], [], []]
            for _ in range(given.runs):
                kinds[0].append(run(path, given.program, "linear"))
                kinds[1].append(run(path, twin))
                kinds[2].append(lua(lua_text, sizes))
                kinds[3].append(python(python_text, sizes))
            results = {result for kind in kinds for _, result in kind}
            if len(results) != 1:
                sys.exit(f"{name}: {results}")
            medians = [statistics.median(seconds for seconds, _ in kind) for kind in kinds]
            ratios = [other / medians[0] for other in medians[1:]]
            print(f"{name:10} " + " ".join(f"{one:9.3f}" for one in medians) + " " + " ".join(f"{one:12.2f}" for one in ratios))


main()
