#!/usr/bin/env python3
"""The rows of hostile use and of failing disks over all farms of the rows, and those of hostile use over the examples, where the gate tries
a choice of them: also all sixteen generators of crashes behind each failing call of a disk, of which the gate tries four.

    tests/outside/sweeps.py                    all of them
    tests/outside/sweeps.py stopped unread     these
    tests/outside/sweeps.py --rows PATH        this program `worked_rows`
    tests/outside/sweeps.py --jobs 2           so many rows at once (1)

The program is the one that the gate builds; each row runs by itself, in a folder with a data file of just this row, so none has the time of
a program of the gate. A row says what it answers (crates/worked_hostile/src/lib.rt, crates/worked_farm/src/lib.rt). It prints each row with
its seconds; its status is 1 where one is answered otherwise."""
import argparse
import concurrent.futures
import os
import subprocess
import sys
import tempfile
import time

ROOT = os.path.dirname(os.path.dirname(os.path.dirname(os.path.realpath(__file__))))
EXAMPLES = os.path.join(ROOT, "examples")
DATA = os.path.join(ROOT, "crates", "worked_rows", "data")
OTHER = "4 journal 404 OtherSource node 0"
HOSTILE = {
    "exchanged": ("exchanged 3 -", OTHER),
    "edited": ("edited 3 -", OTHER),
    "joined": ("joined 5 -", OTHER),
    "unread": ("unread 3 -", "linked"),
    "stopped": ("stopped 3 1", "linked"),
    "swept": ("swept 3 1", "answered"),
}
FARMS = {"failing": ("failing 16", "linked"), "reopened": ("reopened", "linked"), "stranger": ("stranger", "stopped")}


# Of the examples, which are longer, every so many moments and bytes are tried.
STEPS = {"stopped 3 1": "stopped 3 7", "swept 3 1": "swept 3 101"}


def texts():
    """The texts of the farms, each once, and those of the examples, each on one line; and whether it is an example."""
    with open(os.path.join(DATA, "farms.txt"), encoding="utf-8") as file:
        rows = [line for line in file if line[0].isdigit()]
    found = {line.rsplit(" => ", 1)[0].split(" ", 3)[3]: False for line in rows}
    for name in sorted(os.listdir(EXAMPLES)):
        if name.endswith(".c"):
            with open(os.path.join(EXAMPLES, name), encoding="utf-8") as file:
                found[" ".join(file.read().split())] = True
    return list(found.items())


def trial(given, kind, text, is_example):
    """Whether the row is answered as it says, what else was told, and its seconds."""
    question, answer = {**HOSTILE, **FARMS}[kind]
    question = STEPS.get(question, question) if is_example else question
    with tempfile.TemporaryDirectory() as folder:
        name = "hostile.txt" if kind in HOSTILE else "farms.txt"
        # Of the other files no row is asked.
        for other in os.listdir(DATA):
            if other.endswith(".txt"):
                open(os.path.join(folder, other), "w").close()
        with open(os.path.join(folder, name), "w", encoding="utf-8") as file:
            file.write(f"{question} {text} => {answer}\n")
        start = time.monotonic()
        ran = subprocess.run([given.rows], cwd=folder, capture_output=True, check=False)
    lines = ran.stdout.decode(errors="replace").splitlines()
    is_right = ran.returncode == 0 and f"{name}: 1 of 1 agree" in lines
    told = [line for line in lines if line.startswith(f"{name}:")]
    return is_right, " | ".join(told) or f"status {ran.returncode} {ran.stderr[-200:]!r}", time.monotonic() - start


def main():
    ask = argparse.ArgumentParser(description=__doc__, formatter_class=argparse.RawDescriptionHelpFormatter)
    ask.add_argument("kinds", nargs="*", metavar="KIND")
    ask.add_argument("--rows", default=os.path.join(ROOT, "crates", "worked_rows", "out", "worked_rows"))
    ask.add_argument("--jobs", type=int, default=1)
    given = ask.parse_args()
    for kind in given.kinds:
        if kind not in HOSTILE and kind not in FARMS:
            sys.exit(f"{kind}: the kinds are {', '.join([*HOSTILE, *FARMS])}")
    rows = [(kind, *text) for kind in given.kinds or [*HOSTILE, *FARMS] for text in texts() if kind in HOSTILE or not text[1]]
    wrong = 0
    with concurrent.futures.ThreadPoolExecutor(given.jobs) as pool:
        for (kind, text, _), (is_right, told, seconds) in zip(rows, pool.map(lambda row: trial(given, *row), rows)):
            print(f"{'right' if is_right else 'WRONG'} {seconds:7.1f} s  {kind} {text[:90]}" + ("" if is_right else f": {told}"), flush=True)
            wrong += not is_right
    print(f"{len(rows)} rows, wrong: {wrong or 'nothing'}")
    return 1 if wrong else 0


if __name__ == "__main__":
    sys.exit(main())
