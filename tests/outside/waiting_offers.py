#!/usr/bin/env python3
"""Offers that are no plain file are told with 401 and not waited for; a sparse one of 64 MB ends in a second.

    tests/outside/waiting_offers.py --program PATH"""
import os
import time

import edge


def sparse(path):
    with open(path, "wb") as file:
        file.write(b"\1")
        file.truncate(64 << 20)


def main():
    edges = edge.Edge(__doc__)
    cases = {
        "a pipe": (os.mkfifo, b"401 Device"),
        "a link to /dev/zero": (lambda path: os.symlink("/dev/zero", path), b"401 Device"),
        "a folder": (os.mkdir, b"401 Device"),
        "a link to nothing": (lambda path: os.symlink("nowhere", path), b"401 Device"),
        "a sparse file": (sparse, b"10"),
    }
    for title, (make, line) in cases.items():
        made, at = edges.folder()
        with made:
            os.makedirs(at("o", "node1"))
            make(at("o", "node1", "main.pass1"))
            began = time.monotonic()
            answer = edges.run(at, "build", "one.c", "--nodes", "2", "--dir", "none", "--offers", "o", seconds=20)
            took = time.monotonic() - began
            edges.told(title, answer[0] == 0 and answer[2].startswith(b"ignored o/node1/main.pass1 " + line) and took < 5, (answer, took))
    edges.end()


main()
