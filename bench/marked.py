#!/usr/bin/env python3
"""How large offers with rows at marked nodes are beside offers with lists at all nodes, and how long their checks take.

    bench/marked.py                 65,535 nodes with ten facts or equations each, median of five runs
    bench/marked.py --sizes         no times; else build the program first: bench/measure.py

`straight`: ten facts, and behind them nodes that do nothing, each fed by the one before. `constants`: the same with a constant
in each node. `loops`: ten facts, and behind them loops of two nodes, one marked and one not; each head has a row of ten.
Milliseconds are those of reading and of the check alone."""
import argparse
import os
import statistics
import subprocess
import tempfile

ROOT = os.path.dirname(os.path.dirname(os.path.abspath(__file__)))
PROGRAM = os.path.join(ROOT, "crates", "measure", "out", "measure")
FACTS = 10
KINDS = {17: "constants", 18: "subexpressions", 19: "allocation"}
FORMS = ("straight", "constants", "loops")
ADD = 6


def u16(number):
    return number.to_bytes(2, "big")


def u32(number):
    return number.to_bytes(4, "big")


def slot(number):
    return b"\x01" + u16(number)


def listed(entries):
    return u16(len(entries)) + b"".join(entries)


def begun(form):
    """The nodes that make ten facts, and the entries that hold behind them; parameters are told in the third pass."""
    if form == 17:
        return [b"\x01" + u16(r) + u32(r) + u16(r + 1) for r in range(FACTS)], [u16(r) + u32(r) for r in range(FACTS)]
    if form == 18:
        sums = [bytes([ADD]) + u16(FACTS + 1 + r) + u16(r) + u16(r) for r in range(FACTS)]
        nodes = [b"\x03" + sum_ + u16(r + 1) for r, sum_ in enumerate(sums)]
        return nodes, [u16(FACTS + 1 + r) + b"\x00" + bytes([ADD]) + u16(r) + u16(r) for r in range(FACTS)]
    return [], [u16(r) + slot(r) for r in range(FACTS)]


def bodies(kind, form, first, nodes):
    """The nodes from the first one to the last but one, as RTL and, for the third pass, as LTL."""
    rtl, ltl, node = [], [], first
    spare = u16(2 * FACTS + 2)
    while node < nodes - 1:
        if kind == "straight":
            rtl.append(b"\x00" + u16(node + 1))
            ltl.append(b"\x00\x00" + u16(node + 1) + b"\x00")
        elif kind == "constants" or node + 2 > nodes - 1:
            rtl.append(b"\x01" + spare + u32(node) + u16(node + 1))
            ltl.append(b"\x00\x01\x04" + u32(node) + u16(node + 1) + b"\x00")
        else:
            rtl += [b"\x08\x00" + u16(FACTS) + u16(node + 1) + u16(node + 2), b"\x01" + spare + u32(node) + u16(node)]
            ltl += [b"\x01\x00\x00" + slot(FACTS) + b"\x08\x00\x00" + u16(node + 1) + u16(node + 2)]
            ltl += [b"\x00\x01\x04" + u32(node) + u16(node) + b"\x00"]
            node += 1
        node += 1
    return rtl, ltl


def offer(kind, form, nodes):
    """The written offer, and the size that it has with a list at each node."""
    start, entries = begun(form)
    rtl, ltl = bodies(kind, form, len(start), nodes)
    told = entries if form != 19 else entries + [u16(FACTS) + slot(FACTS)]
    parameters = list(range(FACTS + 1)) if form != 17 else [FACTS]
    last = b"\x09\x00" if form != 19 else b"\x06\x00" + bytes([FACTS + 1]) + b"".join(map(u16, parameters)) + b"\x00" + u16(nodes - 1)
    head = b"\x02" + bytes([len(parameters)]) + b"".join(map(u16, parameters)) + u16(2 * FACTS + 3) + u16(0) + u16(nodes)
    code = head + b"".join(start + rtl + [last])
    marked = list(range(len(start), nodes - 2, 2)) if kind == "loops" else []
    rows = [u16(node) + listed(told) for node in marked]
    output = code
    if form == 19:
        block = b"\x00\x06\x00" + bytes([FACTS + 1]) + b"".join(map(slot, parameters)) + b"\x00" + u16(nodes - 1) + b"\x00"
        output = b"\x03" + bytes([FACTS + 1]) + b"".join(map(slot, parameters)) + u16(FACTS + 1) + u16(0) + u16(nodes)
        output += b"".join(ltl + [block])
        rows = rows if marked[:1] == [0] else [u16(0) + listed(told)] + rows
        rows += [u16(nodes - 1) + listed(told)]
    certificate = listed(rows)
    lists = sum(len(listed(told[:node] if form != 19 else told)) for node in range(nodes))
    return bytes([form]) + code + output + certificate, 1 + len(code) + len(output) + lists, len(certificate)


def times(name, bytes_, runs):
    """What the program says of an offer, and the microseconds of its reading and of its check."""
    seen = []
    with tempfile.NamedTemporaryFile() as file:
        file.write(bytes_)
        file.flush()
        for _ in range(runs):
            done = subprocess.run([PROGRAM, name, file.name], capture_output=True, check=True)
            micros = dict(line.rsplit(" ", 1) for line in done.stderr.decode().splitlines())
            seen.append([int(micros[call]) / 1000 for call in ("reading", "check")])
    return done.stdout.decode().strip(), [statistics.median(each) for each in zip(*seen)]


def main():
    words = argparse.ArgumentParser(description=__doc__, formatter_class=argparse.RawDescriptionHelpFormatter)
    words.add_argument("--nodes", type=int, default=65_535)
    words.add_argument("--runs", type=int, default=5)
    words.add_argument("--sizes", action="store_true")
    given = words.parse_args()
    for form, name in KINDS.items():
        for kind in FORMS:
            bytes_, before, certificate = offer(kind, form, given.nodes)
            line = f"{name} {kind}: {before / 1e6:.2f} MB, now {len(bytes_) / 1e6:.2f} ({before / len(bytes_):.1f} times less), "
            line += f"certificate {certificate} bytes"
            if not given.sizes:
                told, (reading, check) = times(name, bytes_, given.runs)
                line += f", reading {reading:.1f} ms, check {check:.1f} ms; {told}"
            print(line, flush=True)


if __name__ == "__main__":
    main()
