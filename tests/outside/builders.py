#!/usr/bin/env python3
"""Farms whose nodes have different builders, and offers from outside that are no good.

    tests/outside/builders.py                   all of it, of crates/cfarm/out/cfarm
    tests/outside/builders.py --program PATH    of this program
    tests/outside/builders.py --only spoiled    one part of it: orders, spoiled
    tests/outside/builders.py --rows FOLDER     writes the files of a few rows into the folder, and prints the rows: what they say is worked out here, but
                                                for the RTL that the offers begin with

orders: three nodes with three builders: one has its optimisers alone, one examples/optimisers/tidy.py, one the offers that tests/outside/bundles.py
makes by docs/FORMATS and docs/PASSES alone and that improve nothing. Of each example and of drawn programs, in each of the six orders, the
nodes agree; what they link does what `interpret` does; the bundle and the program verify, and so on a second build in that folder, which links
the same.
spoiled: offers that are empty, cut, too long, of another pass, of another function, refused by their pass, 64 MB long, or a folder are
ignored by name, each with its number; the build ends with status 0 and links what verifies.

It prints what is wrong, and counts; its status is 1 where something was."""
import argparse
import concurrent.futures
import hashlib
import itertools
import os
import re
import sys
import tempfile

import bundles
from tidied import TIDY

ROOT = os.path.dirname(os.path.dirname(os.path.dirname(os.path.realpath(__file__))))
BOUND = ["--limit", "9000000000000000000"]
BUILDERS = ("own", "tidy", "plain")
DRAWN = 20
LARGE = 64 << 20
UNUSED = re.compile(r"ignored \S+\.pass[234] 602 Unchained")


class Text:
    """A C text with the offers of the two builders from outside, by the names of its functions."""

    def __init__(self, runs, name, text):
        self.name, self.text = name, text
        self.path = runs.put(name, text)
        rtl = runs.emit(self.path, "rtl")
        made = bundles.Made(text, rtl)
        self.names = [name.decode() for name in made.names]
        self.offers = {
            "plain": dict(zip(self.names, made.offers)),
            "tidy": {name: TIDY.offers_of(function)[0] for name, function in TIDY.read_program(rtl)},
        }

    def put(self, runs, folder, node, builder):
        """The files of a builder's offers, where a build with `--offers` looks for those of this node."""
        for name, offers in self.offers.get(builder, {}).items():
            for number, offer in enumerate(offers, 1):
                put(runs, f"{folder}/node{node}/{name}.pass{number}", offer)


def put(runs, name, data):
    os.makedirs(os.path.join(runs.folder, os.path.dirname(name)), exist_ok=True)
    return runs.put(name, data)


def read(runs, name):
    with open(os.path.join(runs.folder, name), "rb") as file:
        return file.read()


def built(runs, text, folder, offers, seed):
    """The lines on standard error of a build that has to succeed, and the program. What it links verifies by its bundle."""
    words = ["build", text.path, "--dir", folder, "--offers", offers, "--seed", str(seed), "--bundle", f"{folder}/bundle"]
    status, out, told = runs.run(*words)
    runs.expect(f"{folder}: build: {out} {told}", status, 0)
    if status:
        return [], b""
    linked = read(runs, f"{folder}/linked.cfp")
    digest = hashlib.sha256(linked).hexdigest()
    runs.expect(f"{folder}: the report", f'"linked":"{digest}"' in out.decode(), True)
    line = f"verified {len(text.names)} functions {digest}\n"
    runs.expect(f"{folder}: verify", runs.verify(text.path, f"{folder}/linked.cfp", f"{folder}/bundle"), (0, line, ""))
    return told.splitlines(), linked


def in_order(runs, text, order):
    """One order of the builders: nodes start in the order of their numbers."""
    folder = f"{text.name}.{'.'.join(order)}"
    offers = f"{folder}.offers"
    os.mkdir(os.path.join(runs.folder, folder))
    for node, builder in enumerate(order):
        text.put(runs, offers, node, builder)
    told, linked = built(runs, text, folder, offers, seed=order.index("own"))
    unfit = [line for line in told if not UNUSED.fullmatch(line)]
    runs.expect(f"{folder}: what is told", unfit, [])
    _, again = built(runs, text, folder, offers, seed=7)
    runs.expect(f"{folder}: the second build", again, linked)
    ran, meant = runs.run("exec", f"{folder}/linked.cfp", *BOUND), runs.run("interpret", text.path, "--depth", "4294967295")
    runs.expect(f"{folder}: exec", ran[:2], meant[:2])


def orders(runs):
    examples = sorted(name for name in os.listdir(f"{ROOT}/examples") if name.endswith(".c"))
    texts = []
    for name in examples:
        with open(f"{ROOT}/examples/{name}", "rb") as file:
            texts.append(Text(runs, name, file.read()))
    texts += [Text(runs, f"drawn{at}.c", text) for at, text in enumerate(bundles.drawn_texts(DRAWN))]
    jobs = [(text, order) for text in texts for order in itertools.permutations(BUILDERS)]
    with concurrent.futures.ThreadPoolExecutor(os.cpu_count()) as pool:
        list(pool.map(lambda job: in_order(runs, *job), jobs))


def refused(runs, text, name, offer):
    """The offer with one byte changed so that its pass refuses it, by what `judge` says."""
    for at in range(len(offer) - 1, 0, -1):
        changed = offer[:at] + bytes([offer[at] ^ 1]) + offer[at + 1:]
        path = runs.put("changed", changed)
        if " 301 " in runs.run("judge", text.path, "--function", name, "--offer", path)[2]:
            return changed
    return None


def spoilt(runs, text, name, number):
    """Bytes that are no good as the offer of this function and pass, and how each is told."""
    offer = text.offers["plain"][name][number - 1]
    other = text.offers["plain"][next(it for it in text.names if it != name)][number - 1]
    next_pass = text.offers["plain"][name][number % 4]
    yield "empty", b"", "101 Short"
    for length in sorted({1, len(offer) // 2, len(offer) - 1}):
        yield f"cut to {length}", offer[:length], "101 Short"
    yield "a byte more", offer + b"\0", "103 NotCanonical"
    yield "of another pass", next_pass, "102 BadTag"
    yield "64 MB of zeros", bytes(LARGE), "102 BadTag"
    yield "64 MB behind it", offer + bytes(LARGE), "103 NotCanonical"
    if number == 1:
        yield "of another function", other, "602 Unchained"
    changed = refused(runs, text, name, offer)
    runs.expect(f"{name} pass {number}: a refused one", changed is not None, True)
    if changed is not None:
        yield "refused", changed, "301 Refused"


def spoiled_one(runs, text, job):
    """One file that cannot be used, of the node in the middle."""
    at, what, number, name, data, line = job
    folder = f"spoiled{at}"
    os.mkdir(os.path.join(runs.folder, folder))
    path = f"{folder}.offers/node1/{name}.pass{number}"
    if data is None:
        os.makedirs(os.path.join(runs.folder, path))
    else:
        put(runs, path, data)
    told, _ = built(runs, text, folder, f"{folder}.offers", seed=at)
    if os.path.isfile(os.path.join(runs.folder, path)):
        os.remove(os.path.join(runs.folder, path))
    runs.expect(f"{name} pass {number}, {what}: what is told", told, [f"ignored {path} {line}"])


def spoiled(runs):
    text = Text(runs, "spoiled.c", bundles.THREE)
    name = text.names[1]
    jobs = []
    for number in range(1, 5):
        jobs += [(number, what, data, line) for what, data, line in spoilt(runs, text, name, number)]
        jobs.append((number, "a folder", None, "401 Device"))
    for at, (number, what, data, line) in enumerate(jobs):
        spoiled_one(runs, text, (at, what, number, name, data, line))


# ---- rows

SUM = b"int main(void) { int sum = 0; int step = 2; for (int i = 0; i < 10; i += step) sum += i * step; return sum; }\n"


def rows(runs, folder):
    """The files of the rows, which lie in a folder `offers` beside them, and the rows."""
    text = Text(runs, "sum.c", SUM)
    plain, tidy = text.offers["plain"]["main"], text.offers["tidy"]["main"]
    bundle = b"CFB1" + hashlib.sha256(SUM).digest() + b"\1" + b"".join(bundles.u32(len(offer)) + offer for offer in tidy)
    rtl = bundles.Made(SUM, runs.emit(text.path, "rtl"))
    linked = b"CFP1\4" + rtl.globals_text + b"\1" + b"\4main" + TIDY.offers_of(TIDY.read_program(runs.emit(text.path, "rtl"))[0][1])[1]
    bad = {
        (0, 1): (b"", "101 Short"), (0, 2): (plain[1][:-1], "101 Short"), (0, 3): (plain[2] + b"\0", "103 NotCanonical"), (0, 4): (plain[0], "102 BadTag"),
        (1, 1): (bundles.Made(bundles.SEVEN, bundles.SEVEN_RTL).offers[0][0], "602 Unchained"),
        **{(1, number): (refused(runs, text, "main", plain[number - 1]), "301 Refused") for number in (2, 3, 4)},
        (2, 1): (refused(runs, text, "main", tidy[0]), "301 Refused"), (2, 3): (None, "401 Device"),
    }
    files = {"sum.c": SUM, "tidied.built/about": b"A build whose nodes are all given one outside optimiser's offers.\n",
             "spoiled.built/about": b"A build whose nodes are given offers that are no good.\n"}
    files |= {f"tidied/node{node}/main.pass{number}": offer for node in range(3) for number, offer in enumerate(tidy, 1)}
    files |= {f"spoiled/node{node}/main.pass{number}" + ("" if data is not None else "/about"): data if data is not None else b"A folder in a file's place.\n"
              for (node, number), (data, _) in bad.items()}
    for name, data in files.items():
        path = os.path.join(folder, name)
        os.makedirs(os.path.dirname(path), exist_ok=True)
        with open(path, "wb") as file:
            file.write(data)
    report = '{"functions":[{"name":"main","rooms":[v,v,v,v]}],"linked":"H","nodes":3}\\n'
    told = "".join(f"ignored offers/spoiled/node{node}/main.pass{number} {line}\\n" for (node, number), (_, line) in sorted(bad.items()))
    yield "# build --offers on the files of the machine: what all nodes are given is linked, and a bundle of it; what is no good is ignored by name"
    for name, ignored in (("tidied", ""), ("spoiled", told)):
        place = f"offers/{name}.built"
        words = f"build offers/sum.c --dir {place} --offers offers/{name} --bundle {place}/linked.cfb"
        yield f'proved {place} {words} => 0 "{report}" "{ignored}" 0 "verified 1 functions H\\n" ""'
    yield f"bytes offers/tidied.built/linked.cfp => {linked.hex()}"
    yield f"bytes offers/tidied.built/linked.cfb => {bundle.hex()}"
    for name in ("tidied", "spoiled"):
        yield f'here exec offers/{name}.built/linked.cfp => 0 "" "ended 40\\n"'


def main():
    parser = argparse.ArgumentParser(description=__doc__.split("\n", maxsplit=1)[0])
    parser.add_argument("--program", default=os.path.join(ROOT, "crates", "cfarm", "out", "cfarm"))
    parser.add_argument("--only", choices=("orders", "spoiled"))
    parser.add_argument("--rows", metavar="FOLDER")
    given = parser.parse_args()
    with tempfile.TemporaryDirectory(prefix="builders.") as folder:
        runs = bundles.Runs(os.path.abspath(given.program), folder)
        if given.rows:
            print("\n".join(rows(runs, given.rows)))
            return 0
        for part in (orders, spoiled):
            if given.only in (None, part.__name__):
                part(runs)
        for fault in runs.faults:
            print(fault)
        print(f"{runs.count} runs, {len(runs.faults)} wrong")
        return 1 if runs.faults else 0


if __name__ == "__main__":
    sys.exit(main())
