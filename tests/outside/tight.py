#!/usr/bin/env python3
"""Builds with little of what the system gives: memory, open files, processes, stack; and in file systems of 1 MB, without inodes and read-only. An
answer of the table comes, no signal; what was linked before stands; and with enough the build goes on to the same program.

    tests/outside/tight.py --program PATH         as root the file systems and the limits of another user too"""
import os
import re
import shutil
import subprocess

import edge

WORDS = ("build", "one.c", "--nodes", "3", "--dir", "none", "--bundle", "b")
RIGHT = re.compile(rb"|file [^\n]*\n|memory\n|undecided\n|write 701\n|journal \d+ \w+ (node|room) \d+\n|(migrated|node) [^\n]*\n")
LIMITS = [f"ulimit -{letter} {size}" for letter, sizes in (
    ("v", (20_000, 50_000, 100_000, 200_000, 500_000, 1_000_000)), ("n", (3, 4, 5, 6, 8, 10, 12, 16)), ("u", (1, 2, 3, 4, 6)), ("s", (16, 64, 128, 256, 1024)),
) for size in sizes] + [f'trap "" XFSZ; ulimit -f {blocks}' for blocks in (0, 1, 2, 8)]
NOBODY = "setpriv --reuid 65534 --regid 65534 --clear-groups"


def is_right(answer):
    return answer[0] in (0, 2, 3, 4, 7) and RIGHT.fullmatch(answer[2]) is not None


def limited(edges, limit, like=""):
    made, at = edges.folder()
    with made:
        os.chmod(made.name, 0o777)
        os.chmod(at("none"), 0o777)
        answer = edges.run(at, *WORDS, shell=f'{limit}; exec {like} "$@"')
        if answer[0] not in (126, 127):  # The shell itself has too little.
            edges.told(f"{limit} {like}", is_right(answer) or b"setpriv" in answer[2], answer)
        answer = edges.run(at, *WORDS, shell=f'exec {like} "$@"')
        edges.told(f"with enough, behind {limit} {like}", answer[0] == 0, answer)


def mounted(edges, options, mended):
    """A file system in memory with these options, over the folder of the build; then with those that mend it."""
    made, at = edges.folder()
    with made:
        edges.run(at, *WORDS)
        program = edge.content(at("none", "linked.cfp"))
        if subprocess.run(["mount", "-t", "tmpfs", "-o", options, "tmpfs", at("none")], capture_output=True, check=False).returncode:
            return
        try:
            for name in ("a build", "another"):
                answer = edges.run(at, *WORDS)
                edges.told(f"{name} in {options}", is_right(answer), answer)
                answer = edges.run(at, "fsck", *WORDS[1:6])
                edges.told(f"fsck behind {name} in {options}", is_right(answer), answer)
            subprocess.run(["mount", "-o", f"remount,{mended}", at("none")], capture_output=True, check=False)
            answer = edges.run(at, *WORDS)
            edges.told(f"{options}, mended", answer[0] == 0 and len(edge.content(at("none", "linked.cfp"))) == len(program), answer)
        finally:
            subprocess.run(["umount", at("none")], check=False)


def main():
    edges = edge.Edge(__doc__)
    for limit in LIMITS:
        limited(edges, limit)
    if os.geteuid() == 0 and shutil.which("setpriv"):
        for limit in LIMITS:
            limited(edges, limit, NOBODY)
        for options, mended in (("size=4k", "size=4m"), ("size=16k", "size=4m"), ("size=1m", "size=4m"), ("nr_inodes=1", "nr_inodes=99"), ("nr_inodes=3", "nr_inodes=99"), ("ro", "rw")):
            mounted(edges, options, mended)
    edges.end()


main()
