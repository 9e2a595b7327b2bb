#!/usr/bin/env python3
"""Times native code of linked programs beside `gcc -O0`, and how long `cfarm native` takes for a large one.

    bench/native.py                 the lowest of ten runs of each, by turns: other work only adds
    bench/native.py --runs 28       so many runs
    bench/native.py --program PATH  this program (crates/cfarm/out/cfarm)

The programs: Fibonacci's number 37, six hundred sieves and eight times Collatz's sequences, as bench/compiled.py has them. Three nodes build each with
`--optimise speed` and the seeds 1 to 4, `native` writes it, and gcc makes a program of that. What each prints is compared. The time is a process's own
in its program, and a ratio is the seed's by that of `gcc -O0` in the same rounds. The large one is the text of bench/compile.py in functions of 1,000
statements by optimisers with a seed; its time is the clock's, the start of `cfarm` and the file among it. Where the best seed takes more of gcc's time than
it may, or the text too long, that is said, and the status is 1."""
import argparse
import os
import subprocess
import sys
import tempfile
import time

from compiled import CFARM, PRINTING, PROGRAMS, write
from verified import emit, texts

SEEDS = range(1, 5)
STATEMENTS, SECONDS = 60_000, 0.25
# a program's name, its loop and a longer one, and the most of gcc's time
LONGER = (
    ("fib", "fib(30)", "fib(37)", 0.95),
    ("sieve", "t < 30", "t < 600", 0.75),
    ("collatz", "for (unsigned i", "for (int t = 0; t < 8; t = t + 1) for (unsigned i", 0.75),
)


def called(*words):
    subprocess.run(words, stdin=subprocess.DEVNULL, stdout=subprocess.DEVNULL, check=True)


def native(folder, name, text, seed, program):
    """What gcc makes of the native text of a build."""
    place = os.path.join(folder, f"{name}.{seed}")
    os.mkdir(place)
    called(program, "build", text, "--dir", place, "--nodes", "3", "--seed", str(seed), "--optimise", "speed")
    called(program, "native", f"{place}/linked.cfp", "-o", f"{place}.s")
    called("gcc", f"{place}.s", "-o", f"{place}.made")
    return f"{place}.made"


def timed(command):
    """A process's own seconds in its program, and what it prints."""
    with tempfile.TemporaryFile() as out:
        process = subprocess.Popen(command, stdin=subprocess.DEVNULL, stdout=out)
        _, status, used = os.wait4(process.pid, 0)
        process.returncode = os.waitstatus_to_exitcode(status)
        out.seek(0)
        return used.ru_utime, (process.returncode, out.read())


def measure(folder, name, text, most, given):
    """Whether a program takes no more than it may."""
    path = write(folder, f"{name}.c", text)
    kinds = {"gcc -O0": os.path.join(folder, name)}
    called("gcc", "-O0", "-w", path, "-o", kinds["gcc -O0"])
    kinds.update((seed, native(folder, name, path, seed, given.program)) for seed in SEEDS)
    rounds = [{kind: timed(made) for kind, made in kinds.items()} for _ in range(given.runs)]
    if len({told for each in rounds for _, told in each.values()}) != 1:
        sys.exit(f"{name}: the programs print or end otherwise")
    lowest = {kind: min(each[kind][0] for each in rounds) for kind in kinds}
    by = lowest.pop("gcc -O0")
    best, worst = min(lowest.values()), max(lowest.values())
    print(f"{name:10} {best:8.3f} s {by:8.3f} of gcc -O0 {best / by:6.2f} {worst / by:6.2f} the worst seed, {most} the most", flush=True)
    return best <= most * by


def measure_text(folder, given):
    """Whether the large text takes no longer than it may."""
    path, linked, put = (os.path.join(folder, name) for name in ("large.c", "large.cfp", "large.s"))
    write(folder, "large.c", texts()(STATEMENTS, 1_000))
    emit(given.program, path, "linear", 1, linked)
    took = []
    for _ in range(given.runs):
        start = time.perf_counter()
        called(given.program, "native", linked, "-o", put)
        took.append(time.perf_counter() - start)
        size = os.path.getsize(put)
        os.remove(put)
    print(f"{STATEMENTS} statements, {os.path.getsize(linked)} bytes, to {size}: {min(took):.3f} s, {SECONDS} the most", flush=True)
    return min(took) <= SECONDS


def main():
    words = argparse.ArgumentParser(description=__doc__.splitlines()[0])
    words.add_argument("--runs", type=int, default=10)
    words.add_argument("--program", default=CFARM)
    given = words.parse_args()
    with tempfile.TemporaryDirectory(prefix="native.") as folder:
        well = [measure(folder, name, PRINTING + PROGRAMS[name][0].replace(short, long), most, given) for name, short, long, most in LONGER]
        well.append(measure_text(folder, given))
    if not all(well):
        print("more than the most")
    return 0 if all(well) else 1


if __name__ == "__main__":
    sys.exit(main())
