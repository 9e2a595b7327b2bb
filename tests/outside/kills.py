#!/usr/bin/env python3
"""Kills `cfarm build` at random moments and builds again, as often as asked for.

    tests/outside/kills.py                 100 directories, each with one to five kills
    tests/outside/kills.py --times 10      so many directories
    tests/outside/kills.py --nodes 3       so many nodes (5)
    tests/outside/kills.py --nodes 4 --promise 3 --accept 2
    tests/outside/kills.py --aged          behind the first kill the journals of some nodes are made into ones of the first version (tests/outside/aged.py), which
                                           the next builds migrate
    tests/outside/kills.py --program PATH  this program

In each directory a build of an example is killed (SIGKILL) one to five times, each at another moment, and then one goes on to its end.
Whatever stood in linked.cfp behind a kill must be the bytes that the last build leaves, a program that was reported must be that one and
stay, and what `exec` prints and tells must be what `interpret` does. Its last line counts the kills, those behind which linked.cfp stood,
and what went wrong."""
import argparse
import hashlib
import json
import os
import random
import signal
import subprocess
import sys
import tempfile
import time

import aged

ROOT = os.path.dirname(os.path.dirname(os.path.dirname(os.path.realpath(__file__))))
PROGRAM = os.path.join(ROOT, "crates", "cfarm", "out", "cfarm")
NAMES = ("cubes", "queens", "collatz")


def content(path):
    try:
        with open(path, "rb") as file:
            return file.read()
    except FileNotFoundError:
        return None


def reported(out):
    """The hash that a report tells; none where there is no whole report."""
    return json.loads(out)["linked"] if out.endswith(b"\n") else None


class Kills:
    """What is killed, and what came of it."""

    def __init__(self, program, sizes, draw, is_aged=False):
        self.program, self.sizes, self.draw, self.is_aged = program, sizes, random.Random(draw), is_aged
        self.kills = self.stood = self.told = 0
        self.wrong = []

    def answer(self, *words):
        """What the program prints, tells and answers."""
        ran = subprocess.run([self.program, *words], capture_output=True, check=False)
        return ran.stdout, ran.stderr, ran.returncode

    def lasted(self, words):
        """How long this build takes in another directory."""
        with tempfile.TemporaryDirectory(dir=ROOT) as other:
            start = time.perf_counter()
            self.answer(*words, other)
            return time.perf_counter() - start

    def kill(self, words, after):
        """Starts a build and kills it after so many seconds. Answers the hash that it had reported, if it had."""
        with subprocess.Popen([self.program, *words], stdout=subprocess.PIPE, stderr=subprocess.DEVNULL) as run:
            time.sleep(after)
            run.send_signal(signal.SIGKILL)
            out = run.stdout.read()
            run.wait()
        self.kills += run.returncode == -signal.SIGKILL
        return reported(out)

    def expect(self, is_right, what):
        if not is_right:
            self.wrong.append(f"{what}, behind kill {self.kills}")

    def behind(self, first, told, linked):
        """Compares what stands in linked.cfp with what stood there first and with what was reported. Answers what stood there first."""
        found = content(linked)
        self.expect(first is None or found == first, "linked.cfp is lost or another")
        self.expect(told is None or (found is not None and hashlib.sha256(found).hexdigest() == told), "not what was reported")
        return found if first is None else first

    def directory(self, number):
        """A build that is killed again and again in a directory, and then one that is not."""
        text = os.path.join(ROOT, "examples", NAMES[number % len(NAMES)] + ".c")
        words = ["build", text, *self.sizes, "--seed", str(number), "--dir"]
        whole = self.lasted(words)
        with tempfile.TemporaryDirectory(dir=ROOT) as folder:
            linked, first = os.path.join(folder, "linked.cfp"), None
            for number in range(self.draw.randint(1, 5)):
                told = self.kill([*words, folder], self.draw.uniform(0, 1.1 * whole))
                first = self.behind(first, told, linked)
                if number == 0 and self.is_aged:
                    aged.age(folder, [node for node in range(7) if self.draw.random() < 0.8])
                self.stood += os.path.exists(linked)
                self.told += told is not None
            out, err, status = self.answer(*words, folder)
            self.expect(status == 0, f"the last build: status {status}, {err.decode(errors='replace').strip()}")
            if status == 0:
                self.behind(first, reported(out), linked)
                self.expect(not os.path.exists(linked + ".new"), "linked.cfp.new stays")
                ran = self.answer("exec", linked, "--limit", "1000000000")
                self.expect(ran == self.answer("interpret", text, "--depth", "1000000"), "exec tells something else than interpret")


def main():
    ask = argparse.ArgumentParser(description=__doc__, formatter_class=argparse.RawDescriptionHelpFormatter)
    ask.add_argument("--times", type=int, default=100)
    ask.add_argument("--nodes", default="5")
    ask.add_argument("--promise")
    ask.add_argument("--accept")
    ask.add_argument("--draw", type=int, default=1, help="what the moments are drawn from")
    ask.add_argument("--aged", action="store_true")
    ask.add_argument("--program", default=PROGRAM)
    asked = ask.parse_args()
    given = (("--nodes", asked.nodes), ("--promise", asked.promise), ("--accept", asked.accept))
    sizes = [word for name, size in given if size is not None for word in (name, size)]
    sweep = Kills(os.path.abspath(asked.program), sizes, asked.draw, asked.aged)
    for number in range(asked.times):
        before = len(sweep.wrong)
        sweep.directory(number)
        for what in sweep.wrong[before:]:
            print(what, flush=True)
    print(f"{sweep.kills} kills, {sweep.stood} times linked.cfp stood behind one, {sweep.told} reports, {len(sweep.wrong)} wrong")
    return 1 if sweep.wrong else 0


if __name__ == "__main__":
    sys.exit(main())
