#!/usr/bin/env python3
"""Times the lexer and the reader over large C texts.

    bench/texts.py                  64 MB of each shape, median of three runs
    bench/texts.py --megabytes 8    smaller texts
    bench/texts.py --keep FOLDER    leaves the texts there

The texts: source like a program's (functions over a few names, with comments and white space), such source with `do`,
compound assignment, `++` and `--`, the first without white space or comments, one name after another, nothing but `;`, and
one comment. The program
`measure` tells how long its calls of the lexer and the reader took; memory is the most that it held.
Beside them, as the floor of the machine, a C program that only writes a record of a token's size for each
token, into an array that grows twofold.
"""
import argparse
import os
import random
import statistics
import subprocess
import sys
import tempfile

ROOT = os.path.dirname(os.path.dirname(os.path.abspath(__file__)))
TOKEN = 48
OPERATORS = ("+=", "-=", "*=", "/=", "%=", "<<=", ">>=", "&=", "^=", "|=")

FLOOR = """
#include <stdio.h>
#include <stdlib.h>
#include <time.h>
struct token { long words[WORDS]; };
static double now(void) { struct timespec t; clock_gettime(CLOCK_MONOTONIC, &t); return t.tv_sec + t.tv_nsec * 1e-9; }
int main(int count, char **words) {
    long tokens = atol(words[1]), room = 4;
    double start = now();
    struct token *all = malloc(room * sizeof *all);
    for (long n = 0; n < tokens; n++) {
        if (n == room) all = realloc(all, (room *= 2) * sizeof *all);
        for (int k = 0; k < WORDS; k++) all[n].words[k] = n + k;
    }
    printf("%f %ld\\n", now() - start, all[tokens / 2].words[0]);
}
"""


def operand(words):
    return words.choice(["value", "count", "left", "right", "total", "n", "x", "12", "0x1fu", "7", "'a'"])


def expression(words):
    parts = [operand(words)]
    for _ in range(words.randrange(4)):
        parts += [words.choice(["+", "-", "*", "<<", "==", "<=", "&", "||"]), operand(words)]
    return " ".join(parts)


def statement(words, indent):
    blank = " " * indent
    shape = words.randrange(7)
    if shape == 0:
        return f"{blank}if ({expression(words)})\n{blank}    {operand_name(words)} = {expression(words)};\n"
    if shape == 1:
        return f"{blank}// what is counted so far\n{blank}{operand_name(words)} = {expression(words)};\n"
    if shape == 2 and indent < 16:
        return f"{blank}while ({expression(words)}) {{\n{statement(words, indent + 4)}{blank}}}\n"
    if shape == 3:
        return f"{blank}table[{expression(words)}] = {expression(words)};\n"
    if shape == 4:
        return f"{blank}putchar({expression(words)});\n"
    return f"{blank}{operand_name(words)} = {expression(words)};\n"


def operand_name(words):
    return words.choice(["value", "count", "left", "right", "total", "n", "x"])


def changing(words, indent):
    """A statement, often a `do`, an assignment by an operator, or a step."""
    blank = " " * indent
    shape = words.randrange(8)
    if shape == 0 and indent < 16:
        return f"{blank}do {{\n{changing(words, indent + 4)}{blank}}} while ({expression(words)});\n"
    if shape == 1:
        return f"{blank}for (n = 0; n < {operand(words)}; n++)\n    {changing(words, indent)}"
    if shape == 2:
        return f"{blank}table[{expression(words)}] {words.choice(OPERATORS)} {expression(words)};\n"
    if shape == 3:
        return f"{blank}{words.choice(('++', '--'))}{operand_name(words)};\n"
    if shape == 4:
        return f"{blank}{operand_name(words)}{words.choice(('++', '--'))};\n"
    if shape == 5:
        return f"{blank}{operand_name(words)} {words.choice(OPERATORS)} {expression(words)};\n"
    return statement(words, indent)


def function(words, number, statement=statement):
    body = "".join(statement(words, 4) for _ in range(words.randrange(4, 20)))
    return (
        f"/* Function {number}: made for measuring. */\nint function_{number}(int left, unsigned right)\n"
        f"{{\n    int value = 1;\n    unsigned count = right;\n{body}    return value;\n}}\n\n"
    )


def source(size, statement=statement):
    """Functions of a program, the same thousand again and again, up to the size."""
    words = random.Random(1)
    text = "".join(function(words, number, statement) for number in range(1000)).encode()
    times = size // len(text)
    return text * times


def dense(size):
    text = b"int f(int a,unsigned b){int c=a+b*3;if(c<7)c=c-1;else{c=0;}while(c){c=c-1;}return c;}"
    return text * (size // len(text))


SHAPES = (
    ("source", source),
    ("changes", lambda size: source(size, changing)),
    ("dense", dense),
    ("names", lambda size: b"a " * (size // 2)),
    ("signs", lambda size: b";" * size),
    ("comment", lambda size: b"/*" + b"x" * (size - 4) + b"*/"),
)


def run(program, path):
    """The seconds of the lexer and the reader, the tokens, and the peak in megabytes."""
    code = (
        "import resource, subprocess, sys\n"
        "done = subprocess.run(sys.argv[1:], stdout=subprocess.PIPE, stderr=subprocess.PIPE)\n"
        "sys.stdout.buffer.write(done.stdout + done.stderr)\n"
        "print('peak', resource.getrusage(resource.RUSAGE_CHILDREN).ru_maxrss)\n"
        "print('status', done.returncode)\n"
    )
    done = subprocess.run([sys.executable, "-c", code, program, "texts", path], stdout=subprocess.PIPE, check=True)
    told = dict(line.split(" ", 1) for line in done.stdout.decode().splitlines() if " " in line)
    if told["status"] != "0":
        sys.exit(f"{path}: status {told['status']}: {told}")
    return {word: int(told.get(word, 0)) for word in ("lexer", "reader", "tokens", "peak")}


def floor(folder):
    path = os.path.join(folder, "floor")
    command = ["cc", "-O2", f"-DWORDS={TOKEN // 8}", "-x", "c", "-", "-o", path]
    subprocess.run(command, input=FLOOR.encode(), check=True)
    return path


def main():
    words = argparse.ArgumentParser(description=__doc__.splitlines()[0])
    words.add_argument("--runs", type=int, default=3)
    words.add_argument("--megabytes", type=int, default=64)
    words.add_argument("--shape", choices=[name for name, _ in SHAPES])
    words.add_argument("--program", default=os.path.join(ROOT, "crates/measure/out/measure"))
    words.add_argument("--keep")
    given = words.parse_args()
    if not os.path.exists(given.program):
        sys.exit("build the program first: bench/measure.py")
    print(f"{'shape':8} {'bytes':>9} {'tokens':>9} {'lexer s':>8} {'MB/s':>6} {'both s':>7} {'MB/s':>6} {'peak MB':>8} {'floor s':>8}")
    with tempfile.TemporaryDirectory() as scratch:
        folder = given.keep or scratch
        twin = floor(scratch)
        for name, make in SHAPES:
            if given.shape not in (None, name):
                continue
            path = os.path.join(folder, f"{name}.c")
            with open(path, "wb") as file:
                size = file.write(make(given.megabytes * 1_000_000))
            runs = [run(given.program, path) for _ in range(given.runs)]
            lexer = statistics.median(one["lexer"] for one in runs) / 1e6
            both = statistics.median(one["lexer"] + one["reader"] for one in runs) / 1e6
            tokens, peak = runs[0]["tokens"], runs[0]["peak"]
            bare = statistics.median(
                float(subprocess.run([twin, str(tokens)], stdout=subprocess.PIPE, check=True).stdout.split()[0])
                for _ in range(given.runs)
            ) if tokens else 0.0
            print(
                f"{name:8} {size:9} {tokens:9} {lexer:8.2f} {size / 1e6 / max(lexer, 1e-6):6.0f}"
                f" {both:7.2f} {size / 1e6 / max(both, 1e-6):6.0f} {peak / 1024:8.0f} {bare:8.2f}"
            )
            if given.keep is None:
                os.remove(path)


main()
