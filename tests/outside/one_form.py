#!/usr/bin/env python3
"""Tries the builders in examples/builders, which are asked for one function and one pass.

    tests/outside/one_form.py                   the examples, and drawn programs
    tests/outside/one_form.py --program PATH    of this program
    tests/outside/one_form.py --drawn N         so many drawn programs

Of each text, function by function and pass by pass, each builder that has an offer is asked for what the pass begins with. All that they make
is taken by `judge`. One of the offers, drawn, is what the next pass goes on from: so each builder is handed what another one made. The program and
the bundle of the drawn offers, put together here by docs/FORMATS alone, are taken by `verify`, and `exec` prints and ends as `interpret` does.

It prints what is wrong, and counts; its status is 1 where something was."""
import argparse
import concurrent.futures
import hashlib
import os
import random
import struct
import subprocess
import sys
import tempfile

import bundles

ROOT = os.path.dirname(os.path.dirname(os.path.dirname(os.path.realpath(__file__))))
BUILDERS = os.path.join(ROOT, "examples", "builders")
BOUND = ["--limit", "9000000000000000000"]
sys.path.insert(0, BUILDERS)
import builder  # noqa: E402

PASSES = {"tidy.py": (1, 2, 3, 4), "fold": (1, 3), "order.sh": (4,)}


def read_linear(it):
    """Goes over a function of Linear."""
    it.u8()
    for _ in range(it.u8()):
        builder.read_place(it)
    it.u16()
    for _ in range(it.u32()):
        kind = it.u8()
        if kind == builder.tidy.MOVE:
            builder.read_place(it), builder.read_place(it)
        elif kind in (builder.tidy.LABEL, builder.tidy.JUMP):
            it.u16()
        else:
            builder.read_act(it, kind, int(kind == builder.tidy.BRANCH))


def output_of(form, offer, number):
    """The output of an offer for this form."""
    it = builder.tidy.Reader(offer)
    it.bytes(1 + len(form))
    begun = it.at
    {1: builder.tidy.read_function, 2: builder.tidy.read_function, 3: builder.Blocks, 4: read_linear}[number](it)
    return offer[begun:it.at]


class Text:
    def __init__(self, runs, fold, name, text, seed):
        self.runs, self.fold, self.name, self.text = runs, fold, name, text
        self.path, self.draws = runs.put(name, text), random.Random(seed)

    def offers(self, function, number, form):
        """What each builder makes of a form, by builder."""
        made = {}
        at = os.path.join(self.runs.folder, self.runs.put(f"{self.name}.{function}.pass{number}", form))
        for name, passes in PASSES.items():
            offer = f"{at}.{name}"
            command = self.fold if name == "fold" else os.path.join(BUILDERS, name)
            done = subprocess.run([command, at, offer], capture_output=True, stdin=subprocess.DEVNULL, check=False)
            self.runs.expect(f"{at}: {name}: {done}", (done.returncode, os.path.exists(offer)), (0, number in passes))
            if os.path.exists(offer):
                with open(offer, "rb") as file:
                    made[name] = file.read()
                told = self.runs.run("judge", self.path, "--function", function, "--offer", offer)
                self.runs.expect(f"{at}: {name}: judge", told, (0, b"accepted pass %d\n" % number, ""))
        return made

    def chain(self, function, form):
        """Offers of four builders of a function, each of what the one before made, and the code."""
        chain = []
        for number in range(1, 5):
            made = self.offers(function, number, form)
            chain.append(made[self.draws.choice(sorted(made))])
            form = output_of(form, chain[-1], number)
        return chain, form

    def tried(self):
        rtl = self.runs.emit(self.path, "rtl")
        functions = builder.tidy.read_program(rtl)
        head = bytes([len(functions)])
        bundle = b"CFB1" + hashlib.sha256(self.text).digest() + head
        linked = b"CFP1\4" + globals_of(rtl) + head
        for name, function in functions:
            chain, code = self.chain(name, function.written())
            bundle += b"".join(struct.pack(">I", len(offer)) + offer for offer in chain)
            linked += bytes([len(name)]) + name.encode() + code
        program, proof = self.runs.put(f"{self.name}.cfp", linked), self.runs.put(f"{self.name}.cfb", bundle)
        line = f"verified {len(functions)} functions {hashlib.sha256(linked).hexdigest()}\n"
        self.runs.expect(f"{self.name}: verify", self.runs.verify(self.path, program, proof), (0, line, ""))
        ran, meant = self.runs.run("exec", program, *BOUND), self.runs.run("interpret", self.path, "--depth", "4294967295")
        self.runs.expect(f"{self.name}: exec", ran[:2], meant[:2])


def globals_of(rtl):
    it = builder.tidy.Reader(rtl)
    it.bytes(5)
    for _ in range(it.u16()):
        it.u32()
        it.bytes(4 * it.u32())
    return rtl[5:it.at]


def texts(drawn):
    for name in sorted(os.listdir(f"{ROOT}/examples")):
        if name.endswith(".c"):
            with open(f"{ROOT}/examples/{name}", "rb") as file:
                yield name, file.read()
    for at, text in enumerate(bundles.drawn_texts(drawn)):
        yield f"drawn{at}.c", text


def main():
    words = argparse.ArgumentParser(description=__doc__, formatter_class=argparse.RawDescriptionHelpFormatter)
    words.add_argument("--program", default=f"{ROOT}/crates/cfarm/out/cfarm")
    words.add_argument("--drawn", type=int, default=40)
    asked = words.parse_args()
    with tempfile.TemporaryDirectory() as folder:
        fold = os.path.join(folder, "fold")
        subprocess.run(["cc", "-O2", "-o", fold, os.path.join(BUILDERS, "fold.c")], check=True)
        runs = bundles.Runs(asked.program, folder)
        with concurrent.futures.ThreadPoolExecutor(os.cpu_count()) as pool:
            list(pool.map(lambda it: Text(runs, fold, *it[1], it[0]).tried(), enumerate(texts(asked.drawn))))
        print(*runs.faults, f"{runs.count} tried, {len(runs.faults)} wrong", sep="\n")
    return int(bool(runs.faults))


if __name__ == "__main__":
    sys.exit(main())
