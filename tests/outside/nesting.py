#!/usr/bin/env python3
"""Texts of 4 MB that nest one thing in itself: each command refuses them within a second.

    tests/outside/nesting.py --program PATH"""
import time

import edge

SIZE = 4 << 20
# Of each kind what opens a level, what stands innermost, and what closes one.
KINDS = {
    "blocks": (b"{", b"", b"}"),
    "parentheses": (b"return (", b"1", b")"),
    "else if": (b"if(1);else ", b";", b""),
    "if": (b"if(1)", b";", b""),
    "while": (b"while(0)", b";", b""),
    "for": (b"for(;0;)", b";", b""),
    "do": (b"do ", b";", b" while(0);"),
    "signs": (b"- ", b"1;", b""),
    "not": (b"!", b"1;", b""),
    "complements": (b"~", b"1;", b""),
    "calls": (b"f(", b"1", b")"),
    "indexes": (b"a[", b"1", b"]"),
    "conditions": (b"1?", b"1", b":1"),
    "conditions behind": (b"1?1:", b"1;", b""),
    "assignments": (b"x=", b"1;", b""),
    "and": (b"1&&(", b"1", b")"),
}


def text_of(first, middle, last):
    depth = SIZE // max(1, len(first) + len(last))
    return b"int a[2];int f(int x){return x;}int main(void){int x;" + first * depth + middle + last * depth + b"}\n"


def main():
    edges = edge.Edge(__doc__)
    made, at = edges.folder()
    with made:
        for title, kind in KINDS.items():
            edge.write(at("deep.c"), text_of(*kind))
            for words in (("check", "deep.c"), ("interpret", "deep.c"), ("build", "deep.c", "--dir", "none")):
                start = time.monotonic()
                answer = edges.run(at, *words)
                seconds = time.monotonic() - start
                edges.told(f"{words[0]} of {title}, {seconds:.2f} s", answer[0] == 1 and answer[2].startswith(b"refused ") and seconds < 1, answer)
    edges.end()


main()
