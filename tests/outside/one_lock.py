#!/usr/bin/env python3
"""`build` and `fsck` take the folder's lock once and hold it while they read and write there: seen by strace, where that is there.

    tests/outside/one_lock.py --program PATH"""
import re
import shutil
import sys

import edge


def main():
    edges = edge.Edge(__doc__)
    if shutil.which("strace") is None:
        print("no strace, nothing tried")
        sys.exit(0)
    for words in (("build", "one.c", "--nodes", "2", "--dir", "none"), ("build", "one.c", "--nodes", "2", "--dir", "e"), ("fsck", "one.c", "--nodes", "2", "--dir", "e")):
        made, at = edges.folder()
        with made:
            answer = edges.run(at, *words, shell='strace -f -o trace -e trace=open,openat,flock,fcntl,rename,renameat,renameat2,close "$@"')
            lines = edge.content(at("trace")).decode(errors="replace").splitlines()
            locks = [number for number, line in enumerate(lines) if "LOCK_EX" in line or "F_OFD_SETLK" in line or "F_WRLCK" in line]
            used = [number for number, line in enumerate(lines) if re.search(r'"(e|none)/(node|linked)', line)]
            opened = [re.search(r"= (\d+)", line) for line in lines if 'cfarm.lock"' in line and " = " in line]
            fd = opened[-1].group(1) if opened and opened[-1] else "none"
            closed = [number for number, line in enumerate(lines) if f"close({fd})" in line and locks and number > locks[0]]
            held = len(locks) == 1 and used and locks[0] < used[0] and (not closed or closed[0] > used[-1])
            edges.told(" ".join(words), answer[0] == 0 and held, (answer, locks, used[:1], used[-1:], closed[:1]))
    edges.end()


main()
