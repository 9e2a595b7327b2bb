#!/usr/bin/env python3
"""Many builds, looks and reads started at once in one folder: one build has it at a time, the others are told so, and what it leaves is verified.

    tests/outside/at_once.py --program PATH [--trials N]     N builds, eight at once"""
import subprocess

import edge

TOGETHER = 8
BUSY = b"file e/cfarm.lock\n"


def started(edges, at, *words):
    return subprocess.Popen([edges.program, *words], cwd=at(), stdin=subprocess.DEVNULL, stdout=subprocess.PIPE, stderr=subprocess.PIPE)


def ended(process):
    out, err = process.communicate(timeout=300)
    return process.returncode, out, err


def main():
    edges = edge.Edge(__doc__, trials=1000)
    refused = 0
    for draw in range(-(-edges.given.trials // TOGETHER)):
        made, at = edges.folder()
        with made:
            words = ("build", "one.c", "--nodes", "2", "--dir", "e" if draw % 2 else "none", "--bundle", "b")
            busy = BUSY.replace(b"e/", words[5].encode() + b"/", 1)
            runs = [started(edges, at, *words, "--seed", str(draw % 3)) for _ in range(TOGETHER)]
            looks = [started(edges, at, "fsck", *words[1:6]) for _ in range(2)]
            for process in runs:
                answer = ended(process)
                refused += answer[2] == busy
                edges.told("a build", answer[0] == 0 and not answer[2] or answer == (2, b"", busy), answer)
            for process in looks:
                answer = ended(process)
                edges.told("fsck beside them", answer[0] == 0 or answer == (2, b"", busy), answer)
            answer = edges.run(at, *words)
            edges.told("a build behind them", answer[0] == 0, answer)
            answer = edges.run(at, "verify", "one.c", "--program", f"{words[5]}/linked.cfp", "--bundle", "b")
            edges.told("what they leave", answer[0] == 0, answer)
    print(f"{refused} builds were told that another has the folder")
    edges.end()


main()
