#!/usr/bin/env python3
"""A bundle and a program are put only where nothing or a plain file is. Else `file PATH` is told with status 2, and nothing is made or changed.

    tests/outside/no_files.py --program PATH"""
import os
import socket

import edge


def devices(at):
    """What is no plain file, by name, and who makes it at a path."""
    made = {
        "a pipe": os.mkfifo,
        "a folder": os.mkdir,
        "a link to a device": lambda path: os.symlink("/dev/null", path),
        "a link to a file": lambda path: (edge.write(at("kept"), b"kept"), os.symlink("kept" if path == at("b") else "../kept", path)),
        "a link to nothing": lambda path: os.symlink("nowhere", path),
        "a socket": lambda path: socket.socket(socket.AF_UNIX).bind(path),
    }
    if os.geteuid() == 0:
        made["a device"] = lambda path: os.mknod(path, 0o020666, os.makedev(1, 3))
    return made


def main():
    edges = edge.Edge(__doc__)
    for title in devices(None):
        for name in ("b", "none/linked.cfp"):
            made, at = edges.folder()
            with made:
                devices(at)[title](at(name))
                before = edge.seen(at)
                answer = edges.run(at, "build", "one.c", "--nodes", "2", "--dir", "none", "--bundle", "b")
                edges.told(f"{name} is {title}", answer == (2, b"", f"file {name}\n".encode()) and edge.seen(at) == before, answer)
    made, at = edges.folder()
    with made:
        edge.write(at("b"), b"old")
        answer = edges.run(at, "build", "one.c", "--nodes", "2", "--dir", "none", "--bundle", "b")
        edges.told("b is a plain file", answer[0] == 0 and edge.content(at("b")) != b"old", answer)
    edges.end()


main()
