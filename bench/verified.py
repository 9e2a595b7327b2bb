#!/usr/bin/env python3
"""Times `cfarm verify` on one processor and on all, beside `gcc -O0 -c` of the same text.

    bench/verified.py                     60,000 statements, nine rounds
    bench/verified.py --rounds 3          so many rounds
    bench/verified.py --statements 10000  so many statements
    bench/verified.py --program PATH      this program (crates/cfarm/out/cfarm)

The texts: that of bench/compile.py in functions of 1,000 statements, the same in functions of 5,000, and one function alone of assignments.
What is verified is what `emit` writes of a text, once by the baselines and once by optimisers with a seed. Seconds are wall-clock seconds of
whole processes, the lowest of the rounds: other work only adds to them. In a round each kind of run is made once, so that all see the same
machine, and verify on one processor a second time, behind that on four: `pairs` is the median over the rounds of the time on four by the mean of the two
around it, which a host that slows down for seconds moves less. One processor is the first that this script may use, and four are the first four. Where verify on four takes more than half of what
it takes on one, or more than gcc takes on one, that is said, and the status is 1."""
import argparse
import os
import statistics
import subprocess
import sys
import tempfile
import time

ROOT = os.path.dirname(os.path.dirname(os.path.abspath(__file__)))


def texts():
    """The maker of texts of bench/compile.py, which is not run."""
    with open(f"{ROOT}/bench/compile.py", encoding="utf-8") as file:
        code = file.read().removesuffix("main()\n")
    names = {"__name__": "compile", "__file__": f"{ROOT}/bench/compile.py"}
    exec(compile(code, "compile.py", "exec"), names)  # pylint: disable=exec-used
    return names["source"]


def alone(statements):
    """One function of assignments, each of a node or two: 65,535 nodes are the most that a function may have."""
    lines = [f"    {'value' if n % 2 else 'count'} = {n}u;" for n in range(statements - 4)]
    return "\n".join(["int main(void)", "{", "    unsigned value = 0u;", "    unsigned count = 0u;", *lines, "    return (int)(value - count);", "}", ""])


def timed(words, processors):
    start = time.perf_counter()
    done = subprocess.run(words, stdin=subprocess.DEVNULL, stdout=subprocess.PIPE, stderr=subprocess.PIPE,
                          preexec_fn=lambda: os.sched_setaffinity(0, processors))
    seconds = time.perf_counter() - start
    if done.returncode != 0:
        sys.exit(f"{' '.join(words)}: status {done.returncode}: {done.stderr.decode(errors='replace')}")
    return seconds


def emit(program, text, form, seed, path):
    words = [program, "emit", text, "--of", form, *([] if seed is None else ["--seed", str(seed)])]
    with open(path, "wb") as out:
        subprocess.run(words, stdin=subprocess.DEVNULL, stdout=out, check=True)


def main():
    words = argparse.ArgumentParser(description=__doc__.splitlines()[0])
    words.add_argument("--rounds", type=int, default=9)
    words.add_argument("--statements", type=int, default=60_000)
    words.add_argument("--program", default=f"{ROOT}/crates/cfarm/out/cfarm")
    given = words.parse_args()
    processors = sorted(os.sched_getaffinity(0))
    one, four = set(processors[:1]), set(processors[:4])
    program = os.path.abspath(given.program)
    source = texts()
    made = {
        "functions of 1,000": source(given.statements, 1_000),
        "functions of 5,000": source(given.statements, 5_000),
        "one function": alone(given.statements),
    }
    wrong = 0
    print(f"{given.statements} statements, {len(four)} processors, {given.rounds} rounds, the lowest in seconds")
    print(f"{'text':20}{'offers':>12}{'one':>9}{'four':>9}{'ratio':>8}{'pairs':>8}{'gcc -O0':>9}{'of gcc':>8}")
    with tempfile.TemporaryDirectory(prefix="verified.") as folder:
        for name, text in made.items():
            path = f"{folder}/text.c"
            with open(path, "w") as out:
                out.write(text)
            for maker, seed in (("baselines", None), ("optimisers", 1)):
                linked, bundle = f"{folder}/linked.cfp", f"{folder}/bundle.cfb"
                emit(program, path, "linear", seed, linked)
                emit(program, path, "bundle", seed, bundle)
                verify = [program, "verify", path, "--program", linked, "--bundle", bundle]
                gcc = ["gcc", "-O0", "-w", "-c", path, "-o", os.devnull]
                rounds = [(timed(verify, one), timed(verify, four), timed(verify, one), timed(gcc, one)) for _ in range(given.rounds)]
                first, on_four, again, of_gcc = (min(each) for each in zip(*rounds))
                alone_on_one = min(first, again)
                pairs = statistics.median(2 * four_took / (before + behind) for before, four_took, behind, _ in rounds)
                ratio = on_four / alone_on_one
                print(f"{name:20}{maker:>12}{alone_on_one:9.3f}{on_four:9.3f}{ratio:8.2f}{pairs:8.2f}{of_gcc:9.3f}{alone_on_one / of_gcc:8.2f}", flush=True)
                if ratio > 0.5 or on_four > of_gcc:
                    wrong += 1
                    print(f"{name}, {maker}: more than half of one processor's time, or than gcc's")
    sys.exit(1 if wrong else 0)


if __name__ == "__main__":
    main()
