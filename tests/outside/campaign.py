#!/usr/bin/env python3
"""The whole campaign against careless and hostile use, as root and as nobody where root runs it. It takes hours; --part does a part of each script's
trials.

    tests/outside/campaign.py --program PATH
    tests/outside/campaign.py --program PATH --part 0.1 --only kills forged_folders

It prints of each script its last line, and its status is 1 where one of them tells something wrong."""
import argparse
import os
import shutil
import subprocess
import sys
import tempfile
import time

HERE = os.path.dirname(os.path.realpath(__file__))
PROGRAM = os.path.join(os.path.dirname(os.path.dirname(HERE)), "crates", "cfarm", "out", "cfarm")
NOBODY = ["setpriv", "--reuid", "65534", "--regid", "65534", "--clear-groups"]
# Each script, the word for how many trials and how many, if it has one, and more words.
SCRIPTS = {
    "kills": ("--times", 170, []),
    "kills --aged": ("--times", 30, []),
    "at_once": ("--trials", 1000, []),
    "forged_folders": ("--trials", 500, []),
    "forged_bundles": ("--trials", 500, []),
    "nesting": (None, 0, []),
    "tight": (None, 0, []),
    "odd_paths": (None, 0, []),
    "no_files": (None, 0, []),
    "own_files": (None, 0, []),
    "waiting_offers": (None, 0, []),
    "closed_streams": (None, 0, []),
    "file_limits": (None, 0, []),
    "lost_journals": (None, 0, []),
    "refused_put": (None, 0, []),
    "hostile": ("--most", 200, ["--quick", "--times", "10"]),
}


def run(given, name, user):
    script, *words = name.split()
    asked, count, more = SCRIPTS[name]
    counted = [asked, str(max(1, round(count * given.part)))] if asked else []
    python = shutil.which("python3", path="/usr/bin:/bin") or sys.executable if user else sys.executable
    began = time.monotonic()
    done = subprocess.run([*user, python, "-B", os.path.join(given.scripts, f"{script}.py"), "--program", given.program, *words, *counted, *more],
                          stdin=subprocess.DEVNULL, stdout=subprocess.PIPE, stderr=subprocess.STDOUT, text=True, check=False)
    lines = done.stdout.splitlines() or [""]
    wrong = [line for line in lines if line.startswith("WRONG")]
    print(f"{name:16} {'nobody' if user else 'as I am':8} {time.monotonic() - began:7.1f} s  status {done.returncode}  {lines[-1]}", *wrong, sep="\n  " if wrong else " ", flush=True)
    return done.returncode


def main():
    ask = argparse.ArgumentParser(description=__doc__, formatter_class=argparse.RawDescriptionHelpFormatter)
    ask.add_argument("--program", default=PROGRAM)
    ask.add_argument("--part", type=float, default=1.0, help="of the trials (1.0)")
    ask.add_argument("--only", nargs="+", default=list(SCRIPTS), choices=list(SCRIPTS))
    given = ask.parse_args()
    users = [[], NOBODY] if os.geteuid() == 0 and shutil.which("setpriv") else [[]]
    # Nobody need not be let into the repository: what it runs stands where it may read.
    with tempfile.TemporaryDirectory(prefix="campaign") as folder:
        os.chmod(folder, 0o755)
        given.scripts = shutil.copytree(HERE, os.path.join(folder, "tests", "outside"))
        shutil.copytree(os.path.join(HERE, "..", "..", "examples"), os.path.join(folder, "examples"))
        given.program = shutil.copy(os.path.realpath(given.program), os.path.join(folder, "cfarm"))
        os.chmod(given.program, 0o755)
        statuses = [run(given, name, user) for name in given.only for user in users]
    sys.exit(1 if any(statuses) else 0)


main()
