#!/usr/bin/env python3
"""Linked programs and bundles that are forged: changed, cut, put together of those of two texts. Where `verify` says yes the program does what the text
does, and the bundle is of it.

    tests/outside/forged_bundles.py --program PATH [--trials N] [--seed S]"""
import collections
import random

import edge

TEXTS = [b"int putchar(int);int f(int n){return n*3+1;}int main(void){int i=0;while(i<4){int r;r=f(i);putchar('a'+r);i=i+1;}return i;}\n",
         b"int putchar(int);int f(int n){return n*2+1;}int main(void){int i=0;while(i<4){int r;r=f(i);putchar('a'+r);i=i+1;}return i;}\n"]


def forged(draw, data, others):
    """The bytes, forged in one way."""
    kind = draw.choice(["bit", "byte", "cut", "twice", "spliced", "other", "inserted", "exchanged"])
    at = draw.randrange(len(data))
    if kind in ("bit", "byte"):
        data = data[:at] + bytes([data[at] ^ 1 << draw.randrange(8) if kind == "bit" else draw.randrange(256)]) + data[at + 1:]
    elif kind == "cut":
        data = data[:at]
    elif kind == "twice":
        data = data[:at] + data[at // 2:]
    elif kind == "spliced":
        data = data[:at] + others[min(at, len(others) - 1):]
    elif kind == "other":
        data = others
    elif kind == "inserted":
        data = data[:at] + draw.randbytes(draw.randrange(1, 9)) + data[at:]
    else:
        to, size = draw.randrange(len(data)), draw.randrange(1, 20)
        data = data[:at] + data[to:to + size] + data[at + size:]
    return kind, data


def main():
    edges = edge.Edge(__doc__, trials=500)
    draw, said = random.Random(edges.given.seed), collections.Counter()
    made, at = edges.folder()
    with made:
        kept = []
        for number, text in enumerate(TEXTS):
            edge.write(at(f"t{number}.c"), text)
            edges.run(at, "build", f"t{number}.c", "--nodes", "2", "--dir", "none", "--bundle", f"b{number}")
            kept.append((edge.content(at("none", "linked.cfp")), edge.content(at(f"b{number}"))))
            for name in ("node0.cf2", "node1.cf2"):
                edge.os.remove(at("none", name))
        right = edges.run(at, "interpret", "t0.c")
        for _ in range(edges.given.trials):
            program, bundle = kept[0]
            which = draw.choice(["program", "bundle", "both"])
            kinds = []
            if which != "bundle":
                kind, program = forged(draw, program, kept[1][0])
                kinds.append(kind)
            if which != "program":
                kind, bundle = forged(draw, bundle, kept[1][1])
                kinds.append(kind)
            edge.write(at("p"), program)
            edge.write(at("b"), bundle)
            answer = edges.run(at, "verify", "t0.c", "--program", "p", "--bundle", "b")
            said["yes" if answer[0] == 0 else "no"] += 1
            title = f"{which} {' '.join(kinds)}"
            if answer[0] == 0:
                edges.told(title, edges.run(at, "exec", "p")[1:] == right[1:], answer)
            else:
                edges.told(title, answer[0] in (1, 4) and answer[1] == b"" and answer[2].count(b"\n") == 1, answer)
    print(dict(said))
    edges.end()


main()
