#!/usr/bin/env python3
"""Times `cfarm settle` beside `sha256sum` on the same files, and says how both grow with the file.

    bench/settle.py            every shape at 1,000, 8,000 and 65,535 nodes, median of five runs
    bench/settle.py --runs 1   one run each

The files are LTL functions: a chain of blocks, a ladder of branches, and a graph drawn at random from
a fixed seed. Seconds are wall-clock seconds of the whole process; peak memory is its resident set.
"""
import argparse
import os
import random
import statistics
import subprocess
import sys
import tempfile
import time

ROOT = os.path.dirname(os.path.dirname(os.path.abspath(__file__)))
SIZES = (1_000, 8_000, 65_535)


def u16(number):
    return number.to_bytes(2, "big")


def u32(number):
    return number.to_bytes(4, "big")


def function(blocks):
    """The bytes of a function of these blocks: no parameters, no slots, entry 0."""
    return b"\x03\x00" + u16(0) + u16(0) + u16(len(blocks)) + b"".join(blocks)


def constant(register, word, successor):
    return b"\x00\x01" + bytes([register]) + u32(word) + u16(successor) + b"\x00"


def branch(register, taken, other):
    return b"\x00\x08\x00" + bytes([register]) + u16(taken) + u16(other)


RETURN = b"\x00\x09\x01\x00"


def chain(nodes):
    return function([constant(0, n, n + 1) for n in range(nodes - 1)] + [RETURN])


def ladder(nodes):
    rungs = [constant(0, 1, 1)]
    for n in range(1, nodes - 1):
        rungs.append(branch(0, min(n + 2, nodes - 1), n + 1))
    return function(rungs + [RETURN])


def graph(nodes):
    words = random.Random(nodes)
    blocks = [constant(0, 1, 1)]
    for n in range(1, nodes - 1):
        if words.random() < 0.5:
            blocks.append(branch(0, words.randrange(nodes), n + 1))
        else:
            blocks.append(constant(words.randrange(8), words.randrange(1 << 32), n + 1))
    return function(blocks + [RETURN])


def once(command):
    """Seconds, peak kilobytes and the last line of one run."""
    start = time.perf_counter()
    process = subprocess.Popen(command, stdout=subprocess.PIPE, stderr=subprocess.PIPE)
    output, errors = process.communicate()
    seconds = time.perf_counter() - start
    if process.returncode != 0:
        sys.exit(f"{command[0]}: status {process.returncode}: {errors.decode(errors='replace').strip()}")
    return seconds, output[-16:]


def peak(command):
    """Peak kilobytes of a run, read by a child that does nothing else."""
    reader = (
        "import os, resource, subprocess, sys\n"
        "subprocess.run(sys.argv[1:], stdout=subprocess.DEVNULL, check=True)\n"
        "print(resource.getrusage(resource.RUSAGE_CHILDREN).ru_maxrss)\n"
    )
    done = subprocess.run([sys.executable, "-c", reader, *command], stdout=subprocess.PIPE, check=True)
    return int(done.stdout)


def measure(command, runs, ending=None):
    seconds = []
    for _ in range(runs):
        taken, tail = once(command)
        if ending is not None and not tail.endswith(ending):
            sys.exit(f"{command}: ends in {tail!r}")
        seconds.append(taken)
    return statistics.median(seconds), peak(command)


def main():
    words = argparse.ArgumentParser(description=__doc__.splitlines()[0])
    words.add_argument("--runs", type=int, default=5)
    words.add_argument("--program", default=os.path.join(ROOT, "crates/cfarm/out/cfarm"))
    given = words.parse_args()
    if not os.path.exists(given.program):
        sys.exit("build the program first: ./cfarm --help")
    print(f"{'shape':8} {'nodes':>6} {'bytes':>8} {'settle s':>9} {'MB':>6} {'sha256sum s':>12} {'MB':>6} {'growth':>7}")
    with tempfile.TemporaryDirectory() as folder:
        for name, make in (("chain", chain), ("ladder", ladder), ("graph", graph)):
            before = None
            for nodes in SIZES:
                path = os.path.join(folder, f"{name}{nodes}.ltl")
                with open(path, "wb") as file:
                    size = file.write(make(nodes))
                seconds, kilobytes = measure([given.program, "settle", path], given.runs, b"agreed 3\n")
                beside, beside_kilobytes = measure(["sha256sum", path], given.runs)
                growth = "" if before is None else f"{seconds / before[0] / (nodes / before[1]):.2f}"
                print(
                    f"{name:8} {nodes:6} {size:8} {seconds:9.3f} {kilobytes / 1024:6.1f}"
                    f" {beside:12.3f} {beside_kilobytes / 1024:6.1f} {growth:>7}"
                )
                before = (seconds, nodes)
    print("growth: how many times the seconds rose for each time the nodes did (1 is linear)")


main()
