#!/usr/bin/env python3
"""Streams that are closed as the program begins: no file of its own gets their numbers, and what cannot be written is told by status 4.

    tests/outside/closed_streams.py --program PATH"""
import os

import edge

# the words, whether it prints, and what it tells
COMMANDS = {
    "build": (("build", "one.c", "--nodes", "2", "--dir", "e"), True, b""),
    "build, fresh": (("build", "one.c", "--nodes", "2", "--dir", "none"), True, b""),
    "build, bundle": (("build", "one.c", "--nodes", "2", "--dir", "e", "--bundle", "b"), True, b""),
    "fsck": (("fsck", "one.c", "--nodes", "2", "--dir", "e"), True, b""),
    "log": (("log", "e/node0.cf2"), True, b""),
    "emit": (("emit", "one.c", "--of", "rtl"), True, b""),
    "exec": (("exec", "e/linked.cfp"), False, b"ended 7\n"),
}
MAY_CHANGE = ("e", "none", "b", "e/linked.cfp", "e/node0.cf2", "e/node1.cf2")


def main():
    edges = edge.Edge(__doc__)
    for title, (words, prints, line) in COMMANDS.items():
        for closed in ("<&-", ">&-", "2>&-", "<&- >&-", ">&- 2>&-", "<&- >&- 2>&-"):
            made, at = edges.folder()
            with made:
                before = edge.seen(at)
                answer = edges.run(at, *words, shell=f'exec "$@" {closed}')
                after = edge.seen(at)
                is_mute = " >&-" in " " + closed and prints
                is_deaf = "2>&-" in closed
                status = 4 if is_mute or is_deaf and line else 0
                told = b"" if is_deaf else b"write 701\n" if is_mute else line
                kept = all(after.get(path) == found for path, found in before.items() if path not in MAY_CHANGE)
                locks = [edge.content(at(folder, "cfarm.lock")) for folder in ("e", "none") if os.path.exists(at(folder, "cfarm.lock"))]
                edges.told(f"{title} {closed}", answer[0] == status and answer[2] == told and kept and not any(locks), answer)
    edges.end()


main()
