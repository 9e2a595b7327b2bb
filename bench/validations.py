#!/usr/bin/env python3
"""Times 64 checks of one offer by 1, 2 and 4 workers.

    bench/validations.py            functions of 20,000 nodes, median of five runs
    bench/validations.py --runs 1   one run

The offer is one of the first pass: constants and sums in turn, with eight facts filled in at each node. Seconds are
those of the call `parallel_validate::check_all`, its threads among them; the ratio is to one worker.
"""
import argparse
import os
import statistics
import subprocess
import sys
import tempfile

ROOT = os.path.dirname(os.path.dirname(os.path.abspath(__file__)))
REGISTERS = 8
ADD = 6


def u16(number):
    return number.to_bytes(2, "big")


def u32(number):
    return number.to_bytes(4, "big")


def offer(nodes):
    """Each node gives the next register a word: a constant, or the sum of the two registers before it."""
    words = [0] * REGISTERS
    known = [False] * REGISTERS
    code, proposed = [], []
    for node in range(nodes - 1):
        target = node % REGISTERS
        left, right = (target - 1) % REGISTERS, (target - 2) % REGISTERS
        if node % 3 == 2 and known[left] and known[right]:
            word = (words[left] + words[right]) % 2**32
            code.append(b"\x03" + bytes([ADD]) + u16(target) + u16(left) + u16(right) + u16(node + 1))
        else:
            word = node
            code.append(b"\x01" + u16(target) + u32(word) + u16(node + 1))
        proposed.append(b"\x01" + u16(target) + u32(word) + u16(node + 1))
        words[target], known[target] = word, True
    for each in (code, proposed):
        each.append(b"\x09\x01" + u16(0))
    head = b"\x02\x00" + u16(REGISTERS) + u16(0) + u16(nodes)
    return b"\x11" + head + b"".join(code) + head + b"".join(proposed) + u16(0)


def run(program, path):
    done = subprocess.run([program, "validation", path], stdout=subprocess.PIPE, stderr=subprocess.PIPE, check=True)
    for line in done.stdout.decode().splitlines():
        workers, accepted = line.split(", ")
        if accepted != "64 accepted":
            sys.exit(f"{workers}: {accepted}")
    return [int(line.split(", ")[1]) / 1e6 for line in done.stderr.decode().splitlines()]


def main():
    words = argparse.ArgumentParser(description=__doc__.splitlines()[0])
    words.add_argument("--runs", type=int, default=5)
    words.add_argument("--nodes", type=int, default=20_000)
    words.add_argument("--program", default=os.path.join(ROOT, "crates/measure/out/measure"))
    given = words.parse_args()
    if not os.path.exists(given.program):
        sys.exit("build the program first: bench/measure.py")
    with tempfile.NamedTemporaryFile() as file:
        file.write(offer(given.nodes))
        file.flush()
        runs = [run(given.program, file.name) for _ in range(given.runs)]
    print(f"{'workers':>7} {'seconds':>8} {'ratio':>6}")
    one = statistics.median(seconds[0] for seconds in runs)
    for index, workers in enumerate((1, 2, 4)):
        middle = statistics.median(seconds[index] for seconds in runs)
        print(f"{workers:7} {middle:8.4f} {middle / one:6.2f}")


main()
