#!/usr/bin/env python3
"""A `build` of which any call of the system fails leaves the old `linked.cfp` or the new one, whole, and the old bundle or the new one; and where it
answers 0 the new ones. Such a refusal may have put the file: the folder's sync fails behind the renaming.

    tests/outside/refused_put.py --program PATH"""
import os
import tempfile

import edge
import shim


def main():
    edges = edge.Edge(__doc__)
    had_put = 0
    with tempfile.TemporaryDirectory(prefix="edge") as tools:
        library, told = os.path.join(tools, "shim.so"), os.path.join(tools, "told")
        shim.build(library)
        made, at = edges.folder()
        with made:
            words = ("build", "one.c", "--nodes", "2", "--dir", "e", "--bundle", "b")
            edges.run(at, *words)
            new = {name: edge.content(at(name)) for name in ("e/linked.cfp", "b")}
            edges.run(at, *words, env=shim.variables(library, told, "s", False, 1 << 40))
            calls, _ = shim.seen(told)
            for number in range(1, calls + 1):
                for name in new:
                    edge.write(at(name), b"old")
                answer = edges.run(at, *words, env=shim.variables(library, told, "s", False, number))
                stands = {name: edge.content(at(name)) for name in new}
                whole = all(stands[name] in (b"old", new[name]) for name in new)
                had_put += answer[0] == 2 and stands["e/linked.cfp"] == new["e/linked.cfp"]
                edges.told(f"call {number} ({shim.seen(told)[1]})", whole and (answer[0] != 0 or stands == new) and answer[0] in (0, 2, 4, 7), answer)
    print(f"{had_put} refusals had put the program")
    edges.end()


main()
