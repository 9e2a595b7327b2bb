#!/usr/bin/env python3
"""Times runs of RTL programs beside the same programs in Lua 5.4.

    bench/runs.py            a counting loop, a sieve and a recursion, median of five runs
    bench/runs.py --runs 1   one run each

Seconds of RTL are those of the call `rtl::run`, seconds of Lua those of its own clock around the
program's work.
"""
import argparse
import os
import statistics
import sys
import tempfile

from loops import LUA_COUNTING, LUA_RECURSION, LUA_SIEVE, lua, run

ROOT = os.path.dirname(os.path.dirname(os.path.abspath(__file__)))


def u16(number):
    return number.to_bytes(2, "big")


def u32(number):
    return number.to_bytes(4, "big")


def constant(target, word, successor):
    return b"\x01" + u16(target) + u32(word) + u16(successor)


ADD, SUB, LESS = 6, 8, 4


def operate(op, target, left, right, successor):
    return b"\x03" + bytes([op]) + u16(target) + u16(left) + u16(right) + u16(successor)


def load(target, index, successor):
    return b"\x04" + u16(target) + u16(0) + u16(index) + u16(successor)


def store(index, source, successor):
    return b"\x05" + u16(0) + u16(index) + u16(source) + u16(successor)


def call(function, arguments, target, successor):
    names = b"".join(map(u16, arguments))
    return b"\x06" + bytes([function, len(arguments)]) + names + b"\x01" + u16(target) + u16(successor)


def less(left, right, taken, other):
    return b"\x08" + bytes([LESS]) + u16(left) + u16(right) + u16(taken) + u16(other)


def nonzero(register, taken, other):
    return b"\x08\x00" + u16(register) + u16(taken) + u16(other)


def give(register):
    return b"\x09\x01" + u16(register)


def function(name, parameters, registers, nodes):
    head = bytes([len(name)]) + name + b"\x02" + bytes([len(parameters)]) + b"".join(map(u16, parameters))
    return head + u16(registers) + u16(0) + u16(len(nodes)) + b"".join(nodes)


def program(cells, functions):
    globals_ = u16(1) + u32(cells) + u32(0) if cells else u16(0)
    return b"CFP1\x02" + globals_ + bytes([len(functions)]) + b"".join(functions)


def counting(turns):
    return program(0, [function(b"main", [], 4, [
        constant(0, 0, 1),
        constant(1, turns, 2),
        constant(2, 1, 3),
        constant(3, 0, 4),
        less(0, 1, 5, 7),
        operate(ADD, 3, 3, 0, 6),
        operate(ADD, 0, 0, 2, 4),
        give(3),
    ])])


def sieve(size, turns):
    # r0 turn, r1 turns, r2 one, r3 size, r4 i, r5 j, r6 zero, r7 the cell, r8 count
    return program(size, [function(b"main", [], 9, [
        constant(0, 0, 1),
        constant(1, turns, 2),
        constant(2, 1, 3),
        constant(3, size, 4),
        constant(6, 0, 5),
        constant(8, 0, 6),
        less(0, 1, 7, 23),
        # all cells become 0
        constant(4, 0, 8),
        less(4, 3, 9, 11),
        store(4, 6, 10),
        operate(ADD, 4, 4, 2, 8),
        # each i from 2 on that is not crossed out is counted, and crosses out its multiples
        constant(4, 2, 12),
        less(4, 3, 13, 22),
        load(7, 4, 14),
        nonzero(7, 21, 15),
        operate(ADD, 8, 8, 2, 16),
        operate(ADD, 5, 4, 4, 17),
        less(5, 3, 18, 21),
        store(5, 2, 19),
        operate(ADD, 5, 5, 4, 17),
        constant(7, 0, 21),
        operate(ADD, 4, 4, 2, 12),
        operate(ADD, 0, 0, 2, 6),
        give(8),
    ])])


def recursion(number):
    main = function(b"main", [], 1, [constant(0, number, 1), call(1, [0], 0, 2), give(0)])
    fib = function(b"fib", [0], 4, [
        constant(1, 2, 1),
        less(0, 1, 2, 3),
        give(0),
        constant(2, 1, 4),
        operate(SUB, 3, 0, 2, 5),
        call(1, [3], 3, 6),
        operate(SUB, 0, 0, 1, 7),
        call(1, [0], 0, 8),
        operate(ADD, 0, 0, 3, 9),
        give(0),
    ])
    return program(0, [main, fib])


ROWS = (
    ("counting", counting, LUA_COUNTING, (50_000_000,)),
    ("sieve", sieve, LUA_SIEVE, (65_536, 100)),
    ("recursion", recursion, LUA_RECURSION, (32,)),
)


def main():
    words = argparse.ArgumentParser(description=__doc__.splitlines()[0])
    words.add_argument("--runs", type=int, default=5)
    words.add_argument("--program", default=os.path.join(ROOT, "crates/measure/out/measure"))
    words.add_argument("--keep")
    given = words.parse_args()
    if not os.path.exists(given.program):
        sys.exit("build the program first: bench/measure.py")
    print(f"{'program':10} {'RTL s':>8} {'Lua s':>8} {'times':>6}")
    with tempfile.TemporaryDirectory() as scratch:
        for name, make, text, sizes in ROWS:
            path = os.path.join(given.keep or scratch, f"{name}.cfp")
            with open(path, "wb") as file:
                file.write(make(*sizes))
            ours = [run(path, given.program, "rtl") for _ in range(given.runs)]
            theirs = [lua(text, sizes) for _ in range(given.runs)]
            if {told for _, told in ours} != {told for _, told in theirs}:
                sys.exit(f"{name}: {ours[0][1]} and {theirs[0][1]}")
            a = statistics.median(seconds for seconds, _ in ours)
            b = statistics.median(seconds for seconds, _ in theirs)
            print(f"{name:10} {a:8.3f} {b:8.3f} {b / a:6.2f}")


main()
