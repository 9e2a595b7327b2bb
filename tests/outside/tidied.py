#!/usr/bin/env python3
"""Tries the optimisers from outside, examples/optimisers/tidy.py and fold.c, on the examples and on C texts given by name.

    tests/outside/tidied.py                 the examples
    tests/outside/tidied.py TEXT..          these texts
    tests/outside/tidied.py --program PATH  this program
    tests/outside/tidied.py --speed         also the three programs of bench/compiled.py: instructions that `exec` takes, by callgrind, beside those
                                            of `build --optimise speed` and `drawn`, the best and the median of seeds 1 to 12

Of each text: every offer of both is taken by `judge`; the program of tidy.py's offers and their bundle, put together here by docs/FORMATS
alone, is taken by `verify`; and `exec` prints and ends as `interpret` does. Its status is 1 where something was otherwise."""
import argparse
import hashlib
import importlib.util
import os
import re
import statistics
import struct
import subprocess
import sys
import tempfile

ROOT = os.path.dirname(os.path.dirname(os.path.dirname(os.path.realpath(__file__))))
BOUND = ["--limit", "9000000000000000000"]


def tidy():
    found = importlib.util.spec_from_file_location("tidy", os.path.join(ROOT, "examples", "optimisers", "tidy.py"))
    module = importlib.util.module_from_spec(found)
    found.loader.exec_module(module)
    return module


TIDY = tidy()


class Tried:
    def __init__(self, program, folder):
        self.program, self.folder, self.wrong = program, folder, 0
        self.fold = os.path.join(folder, "fold")
        subprocess.run(["cc", "-O2", "-o", self.fold, os.path.join(ROOT, "examples", "optimisers", "fold.c")], check=True)

    def run(self, *words):
        done = subprocess.run([self.program, *words], stdin=subprocess.DEVNULL, capture_output=True, check=False)
        return done.returncode, done.stdout, done.stderr.decode("utf-8", "replace").strip()

    def put(self, name, data):
        path = os.path.join(self.folder, name)
        with open(path, "wb") as file:
            file.write(data)
        return path

    def expect(self, told, is_right):
        if not is_right:
            self.wrong += 1
            print(f"WRONG {told}")

    def made(self, text):
        """The linked program and the bundle of the optimiser's offers, and where they stand."""
        status, rtl, told = self.run("emit", text, "--of", "rtl")
        if status:
            self.expect(f"{text}: emit: {told}", False)
            return None
        with open(text, "rb") as file:
            bundle = b"CFB1" + hashlib.sha256(file.read()).digest()
        functions = TIDY.read_program(rtl)
        bundle += bytes([len(functions)])
        linked = b"CFP1\4" + globals_of(rtl) + bytes([len(functions)])
        for name, function in functions:
            offers, linear = TIDY.offers_of(function)
            for number, offer in enumerate(offers, 1):
                path = self.put("offer", offer)
                answer = self.run("judge", text, "--function", name, "--offer", path)
                self.expect(f"{text}: {name} pass {number}: {answer}", answer[:2] == (0, b"accepted pass %d\n" % number))
                bundle += struct.pack(">I", len(offer)) + offer
            linked += bytes([len(name)]) + name.encode() + linear
        return self.put("linked", linked), self.put("bundle", bundle)

    def folded(self, text):
        """Whether `judge` takes each offer of fold.c."""
        rtl = self.put("rtl", self.run("emit", text, "--of", "rtl")[1])
        with tempfile.TemporaryDirectory(dir=self.folder) as offers:
            done = subprocess.run([self.fold, rtl, offers], capture_output=True, text=True, check=False)
            self.expect(f"{text}: fold: {done.stderr}", done.returncode == 0)
            for name in sorted(os.listdir(offers)):
                answer = self.run("judge", text, "--function", name.removesuffix(".pass1"), "--offer", os.path.join(offers, name))
                self.expect(f"{text}: fold, {name}: {answer}", answer[:2] == (0, b"accepted pass 1\n"))

    def text(self, text):
        made = self.made(text)
        if made is None:
            return
        self.folded(text)
        answer = self.run("verify", text, "--program", made[0], "--bundle", made[1])
        self.expect(f"{text}: verify: {answer}", answer[0] == 0)
        ran, meant = self.run("exec", made[0], *BOUND), self.run("interpret", text, "--depth", "4294967295")
        self.expect(f"{text}: exec {ran[0]}, interpret {meant[0]}", (ran[0], ran[1]) == (meant[0], meant[1]))

    def instructions(self, path):
        words = ["valgrind", "--tool=callgrind", "--callgrind-out-file=/dev/null", self.program, "exec", path, *BOUND]
        told = subprocess.run(words, stdin=subprocess.DEVNULL, capture_output=True, check=False).stderr.decode()
        return int(re.search(r"Collected : (\d+)", told)[1])

    def speed(self, name, text):
        path = self.put(f"{name}.c", text.encode())
        made = self.made(path)
        ours = self.instructions(made[0])
        told = [f"{name:10} tidy {ours:>14,}"]
        for way in ("speed", "drawn"):
            found = []
            for seed in range(1, 13):
                folder = os.path.join(self.folder, f"{name}.{way}.{seed}")
                os.mkdir(folder)
                self.run("build", path, "--optimise", way, "--seed", str(seed), "--dir", folder)
                found.append(self.instructions(os.path.join(folder, "linked.cfp")))
            told.append(f"{way}: best {min(found):>14,} ({ours / min(found):.2f}), median {int(statistics.median(found)):>14,} "
                        f"({ours / statistics.median(found):.2f})")
        print("; ".join(told), flush=True)


def globals_of(program):
    """The bytes of a program's globals, with their number."""
    at, count = 7, int.from_bytes(program[5:7], "big")
    for _ in range(count):
        at += 8 + 4 * int.from_bytes(program[at + 4:at + 8], "big")
    return program[5:at]


def main():
    parser = argparse.ArgumentParser(description=__doc__.split("\n", maxsplit=1)[0])
    parser.add_argument("--program", default=os.path.join(ROOT, "crates", "cfarm", "out", "cfarm"))
    parser.add_argument("--speed", action="store_true")
    parser.add_argument("texts", nargs="*")
    given = parser.parse_args()
    examples = os.path.join(ROOT, "examples")
    texts = given.texts or sorted(os.path.join(examples, it) for it in os.listdir(examples) if it.endswith(".c"))
    with tempfile.TemporaryDirectory() as folder:
        tried = Tried(given.program, folder)
        for text in texts:
            tried.text(text)
        print(f"{len(texts)} texts, {tried.wrong} wrong", flush=True)
        if given.speed:
            sys.path.append(os.path.join(ROOT, "bench"))
            import compiled
            for name in ("fib", "sieve", "collatz"):
                tried.speed(name, compiled.PRINTING + compiled.PROGRAMS[name][0])
    return 1 if tried.wrong else 0


if __name__ == "__main__":
    sys.exit(main())
