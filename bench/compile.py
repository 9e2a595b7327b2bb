#!/usr/bin/env python3
"""Times the stages of compiling C texts, beside `gcc -O0 -c` and `tcc -c` on the same texts.

    bench/compile.py                    1,000, 10,000 and 60,000 statements, median of three runs
    bench/compile.py --runs 1           one run each
    bench/compile.py --statements 500   so many statements in each function (1,000)
    bench/compile.py --by baselines     one maker of offers alone

The texts: functions of some statements each, whose numbers grow with the size: assignments, stores, loops, `if` and
calls of functions before them. The program `measure` tells how long its calls of each stage took, without
the start of the process; of gcc and tcc it is the whole process, and beside it that of a text with one empty
function. The last lines say how often longer a stage takes for each size than for the one before.
"""
import argparse
import os
import random
import statistics
import subprocess
import sys
import tempfile
import time

ROOT = os.path.dirname(os.path.dirname(os.path.abspath(__file__)))
SIZES = (1_000, 10_000, 60_000)
BEFORE = ("lex", "read", "check", "lower", "translate")
PASSES = ("constants", "expressions", "allocation", "order", "link")
NAMES = ("value", "count", "left", "right", "total", "rest")


def operand(words):
    return words.choice(NAMES + ("12", "0x1fu", "7u", "table[count&63u]"))


def expression(words):
    parts = [operand(words)]
    for _ in range(words.randrange(3)):
        parts += [words.choice(("+", "-", "*", "&", "^", "<")), operand(words)]
    return " ".join(parts)


def statement(words, indent, number):
    """The lines of a statement, and how many statements they are."""
    blank = "    " * indent
    shape = words.randrange(10)
    if shape == 0 and indent < 4:
        body, inner = statement(words, indent + 1, number)
        return [f"{blank}if ({expression(words)}) {{", *body, f"{blank}}}"], inner + 1
    if shape == 1 and indent < 4:
        body, inner = statement(words, indent + 1, number)
        return [f"{blank}while (count < {words.randrange(9)}u) {{", *body, f"{blank}    count = count + 1u;", f"{blank}}}"], inner + 2
    if shape == 2:
        return [f"{blank}table[{words.choice(NAMES)} & 63u] = {expression(words)};"], 1
    if shape == 3 and number > 0:
        return [f"{blank}{words.choice(NAMES)} = f{words.randrange(number)}({operand(words)}, {operand(words)});"], 1
    return [f"{blank}{words.choice(NAMES)} = {expression(words)};"], 1


def function(words, number, statements):
    lines = [f"unsigned f{number}(unsigned left, unsigned right)", "{"]
    lines += [f"    unsigned {name} = {n}u;" for n, name in enumerate(NAMES) if name not in ("left", "right")]
    count = len(NAMES) - 2
    while count < statements - 1:
        body, more = statement(words, 1, number)
        lines += body
        count += more
    return lines + ["    return value + count;", "}", ""], count + 1


def source(statements, each):
    """A text of so many statements, in functions of so many."""
    words = random.Random(1)
    lines, done, number = ["unsigned table[64];"], 0, 0
    while done < statements:
        body, count = function(words, number, min(each, max(8, statements - done)))
        lines += body
        done += count
        number += 1
    return "\n".join(lines + [f"int main(void) {{ unsigned result; result = f{number - 1}(1u, 2u); return (int)(result & 127u); }}", ""])


def stages(program, by, path):
    """The microseconds of each stage."""
    done = subprocess.run([program, by, path], stdout=subprocess.PIPE, stderr=subprocess.PIPE)
    told = dict(line.split(" ", 1) for line in done.stderr.decode().splitlines())
    if done.returncode != 0 or "link" not in told:
        sys.exit(f"{path}: status {done.returncode}: {done.stderr.decode()}")
    return {stage: int(told[stage]) for stage in BEFORE + PASSES}, done.stdout.decode().strip()


def whole(command, path):
    start = time.perf_counter()
    subprocess.run([*command, "-c", path, "-o", os.devnull], check=True, stderr=subprocess.DEVNULL)
    return time.perf_counter() - start


def median_of(runs):
    return {stage: statistics.median(one[stage] for one in runs) / 1e6 for stage in runs[0]}


def line(name, seconds):
    return f"{name:12}" + "".join(f"{one:11.4f}" for one in seconds)


def growth(seconds):
    return "  ".join(f"{b / a:5.1f}" if a > 0.0002 else "    -" for a, b in zip(seconds, seconds[1:]))


def main():
    words = argparse.ArgumentParser(description=__doc__.splitlines()[0])
    words.add_argument("--runs", type=int, default=3)
    words.add_argument("--statements", type=int, default=1000)
    words.add_argument("--by", choices=("baselines", "optimisers"))
    words.add_argument("--program", default=os.path.join(ROOT, "crates/measure/out/measure"))
    words.add_argument("--keep")
    given = words.parse_args()
    if not os.path.exists(given.program):
        sys.exit("build the program first: bench/measure.py")
    makers = [given.by] if given.by else ["baselines", "optimisers"]
    ours = {by: [] for by in makers}
    others = {"gcc -O0": [], "tcc": []}
    commands = {"gcc -O0": ("gcc", "-O0", "-w"), "tcc": ("tcc", "-w")}
    with tempfile.TemporaryDirectory() as scratch:
        folder = given.keep or scratch
        empty = os.path.join(scratch, "empty.c")
        with open(empty, "w") as file:
            file.write("int main(void) { return 0; }\n")
        for size in SIZES:
            path = os.path.join(folder, f"{size}.c")
            with open(path, "w") as file:
                file.write(source(size, given.statements))
            for by in makers:
                runs = [stages(given.program, by, path) for _ in range(given.runs)]
                ours[by].append(median_of([told for told, _ in runs]))
                print(f"{size} statements, {os.path.getsize(path)} bytes, {by}: {runs[0][1]}", flush=True)
            for name, command in commands.items():
                others[name].append(statistics.median(whole(command, path) for _ in range(given.runs)))
        starts = {name: statistics.median(whole(command, empty) for _ in range(5)) for name, command in commands.items()}
    print(f"{'seconds':12}" + "".join(f"{size:11}" for size in SIZES) + "  growth")
    for by in makers:
        for stage in BEFORE + PASSES:
            seconds = [one[stage] for one in ours[by]]
            print(line(stage, seconds), "", growth(seconds))
        seconds = [sum(one.values()) for one in ours[by]]
        print(line(by, seconds), "", growth(seconds))
    for name, seconds in others.items():
        print(line(name, seconds), "", growth(seconds), f" (an empty text {starts[name]:.4f})")
    for by in makers:
        seconds = [sum(one.values()) for one in ours[by]]
        for name in commands:
            print(f"{by} takes " + ", ".join(f"{a / b:.2f}" for a, b in zip(seconds, others[name])) + f" times {name}")


main()
