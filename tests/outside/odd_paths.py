#!/usr/bin/env python3
"""Paths with control characters are told with the codes of these, and all other characters as they are; what is at them is read and put as ever.

    tests/outside/odd_paths.py --program PATH"""
import os

import edge

NAMES = {
    "a\tb": "a\\x09b",
    "a\nb": "a\\x0ab",
    "a\x1b[31mb": "a\\x1b[31mb",
    "\x01\x1f \x7f~": "\\x01\\x1f \\x7f~",
    "\x80\x9f\xa0": "\\x80\\x9f\xa0",
    "\\x09 ü€\U0001f40c": "\\x09 ü€\U0001f40c",
}


def main():
    edges = edge.Edge(__doc__)
    for name, shown in NAMES.items():
        made, at = edges.folder()
        with made:
            shown = shown.encode()
            for words in (("check", name), ("build", name, "--dir", "none"), ("fsck", name, "--dir", "none"), ("log", name), ("show", name)):
                answer = edges.run(at, *words)
                edges.told(f"{words[0]} {name!r}, which is not there", answer == (2, b"", b"file " + shown + b"\n"), answer)
            edge.write(at("p" + name), b"none")
            answer = edges.run(at, "verify", "one.c", "--program", "p" + name, "--bundle", "p" + name)
            edges.told(f"a program {name!r} that is none", answer == (1, b"", b"refused 102 BadTag in p" + shown + b"\n"), answer)
            edge.write(at("q" + name), b"int main(void){return x;}")
            answer = edges.run(at, "check", "q" + name, "--format", "gcc")
            edges.told(f"a text {name!r} that is refused", answer[0] == 1 and answer[2].startswith(b"q" + shown + b":1:23: error: "), answer)
            answer = edges.run(at, "build", "one.c", "--dir", name)
            edges.told(f"a folder {name!r} that is not there", answer == (2, b"", b"file " + shown + b"/cfarm.lock\n"), answer)
            os.makedirs(at(name, "node0"))
            edge.write(at(name, "node0", "main.pass1"), b"no offer")
            answer = edges.run(at, "build", "one.c", "--dir", "none", "--offers", name)
            right = b"ignored " + shown + b"/node0/main.pass1 102 BadTag\n"
            edges.told(f"offers in {name!r}", answer[0] == 0 and answer[2] == right, answer)
            answer = edges.run(at, "build", "one.c", "--dir", name)
            edges.told(f"a build in {name!r}", answer[0] == 0 and os.path.exists(at(name, "linked.cfp")), answer)
    edges.end()


main()
