#!/usr/bin/env python3
"""A text, a bundle or a folder of offers that is one of the files of the build's own, by what it is, is refused before anything is made.

    tests/outside/own_files.py --program PATH"""
import os
import shutil

import edge

OWN = ("linked.cfp", "linked.cfp.new", "cfarm.lock", "node0.cf2", "node1.cf2", "node1.cfj", "node6.cf2", "node6.cfj")


def ways(at, own):
    """Other names for a file of the folder, and who makes them."""
    return {
        f"e/{own}": lambda: None,
        f"./e/../e/{own}": lambda: None,
        "link.c": lambda: os.symlink(f"e/{own}", at("link.c")),
        "hard.c": lambda: os.link(at("e", own), at("hard.c")),
        f"link/{own}": lambda: os.symlink("e", at("link")),
    }


def tell(edges, at, title, path, *words):
    before = edge.seen(at)
    answer = edges.run(at, "build", *words)
    edges.told(title, answer == (2, b"", f"file {path}\n".encode()) and edge.seen(at) == before, answer)


def main():
    edges = edge.Edge(__doc__)
    for own in OWN:
        for path in ways(None, own):
            made, at = edges.folder()
            with made:
                shutil.copy(at("one.c"), at("e", own))
                ways(at, own)[path]()
                tell(edges, at, f"the text is {path} ({own})", path, path, "--nodes", "2", "--dir", "e")
                tell(edges, at, f"the bundle is {path} ({own})", path, "one.c", "--nodes", "2", "--dir", "e", "--bundle", path)
                tell(edges, at, f"the offers are {path} ({own})", path, "one.c", "--nodes", "2", "--dir", "e", "--offers", path)
    for path, make in (("one.c", lambda at: None), ("hard", lambda at: os.link(at("one.c"), at("hard"))), ("b", lambda at: os.rename(at("one.c"), at("b.new")))):
        made, at = edges.folder()
        with made:
            make(at)
            text = "b.new" if path == "b" else "one.c"
            tell(edges, at, f"the text is {text}, the bundle {path}", path, text, "--nodes", "2", "--dir", "none", "--bundle", path)
    made, at = edges.folder()
    with made:
        os.symlink("b.new", at("text"))
        os.rename(at("one.c"), at("b.new"))
        tell(edges, at, "the text leads to what is written beside the bundle", "b", "text", "--nodes", "2", "--dir", "none", "--bundle", "b")
    made, at = edges.folder()
    with made:
        answer = edges.run(at, "build", "one.c", "--nodes", "2", "--dir", "e", "--bundle", "b", "--offers", "none")
        edges.told("paths of the user's own", answer[0] == 0 and os.path.exists(at("b")), answer)
    edges.end()


main()
