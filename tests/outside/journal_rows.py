#!/usr/bin/env python3
"""Writes crates/worked_rows/data/changed.txt: what each journal stands for that differs from a given one in a single
byte, whatever the byte, and what each front of the given one stands for.

    tests/outside/journal_rows.py

The answers are made by the reading below, which stands on the form of a journal alone (docs/FORMATS.md, "A journal")."""
import os
import sys

ROOT = os.path.dirname(os.path.dirname(os.path.dirname(os.path.realpath(__file__))))
FILE = os.path.join(ROOT, "crates", "worked_rows", "data", "changed.txt")
FIRST = b"CFJ1" + bytes([3, 1]) + bytes(range(100, 132))
SECOND = b"CFJF" + bytes([4, 3, 3, 1]) + bytes(range(100, 132))
NEW = b"CFJ2" + bytes([4, 3, 3, 1]) + bytes(range(100, 132))


def u16(number):
    return number.to_bytes(2, "big")


def block(body):
    return b"\x01" + len(body).to_bytes(4, "big") + body


EMPTY = b"\x00"
EACH = b"".join(map(block, (
    b"\x01" + u16(3) + b"\x00\xff\x07",
    b"\x02" + u16(3) + u16(4),
    b"\x04" + u16(3) + u16(4),
    b"\x03" + u16(3) + u16(4) + b"\x01",
    b"\x05" + u16(258) + u16(1027) + b"\x02",
))) + b"\x00\x01\x00"
SUMMED = block(b"\x06" + u16(2) + u16(5) + u16(1026) + u16(9) + b"\x03") + EACH


def told(body):
    """A body in words, or none where it is of no form."""
    if len(body) < 3 or not 1 <= body[0] <= 6:
        return None
    code, room, rest = body[0], int.from_bytes(body[1:3], "big"), body[3:]
    if code == 1:
        return f"1,{room},{len(rest)};"
    if len(rest) != {2: 2, 3: 3, 4: 2, 5: 3, 6: 7}[code]:
        return None
    if code == 6:
        numbers = [int.from_bytes(rest[at:at + 2], "big") for at in (0, 2, 4)]
        return ",".join(str(it) for it in (code, room, *numbers, rest[6])) + ";"
    return ",".join(str(it) for it in (code, room, int.from_bytes(rest[:2], "big"), *rest[2:])) + ";"


def is_in_form(header, journal):
    """Whether a journal begins with a header of the asked one's version, in any of its forms, and a gate at least."""
    if header[:4] == b"CFJ2":
        return journal[:4] == b"CFJ2" and len(journal) >= 41
    if journal[:4] == b"CFJ1":
        return len(journal) >= 39
    if journal[:4] != b"CFJF" or len(journal) < 41:
        return False
    nodes, promise, accept = journal[4:7]
    return not (nodes % 2 == 1 and promise == accept == (nodes + 1) // 2)


def read(header, journal):
    """The records in words, or the name of the fault."""
    if not is_in_form(header, journal):
        return "NotAJournal"
    if journal[:len(header)] != header:
        return "OtherSource"
    records, at = "", len(header)
    while at < len(journal) and journal[at] == 1:
        size = int.from_bytes(journal[at + 1:at + 5], "big")
        body = journal[at + 5:at + 5 + size]
        record = told(body)
        if at + 5 > len(journal) or len(body) != size or record is None:
            return "BadRecord"
        if body[0] == 6 and header[:4] != b"CFJ2":
            return "BadRecord"
        records, at = records + record, at + 5 + size
    return f"[{records}]" if at < len(journal) else "BadRecord"


def runs(answers):
    """Answers, those that are alike and follow one another told once with their number."""
    told_runs = []
    for answer in answers:
        if told_runs and told_runs[-1][0] == answer:
            told_runs[-1][1] += 1
        else:
            told_runs.append([answer, 1])
    return " ".join(f"{answer}*{number}" for answer, number in told_runs)


def rows_of(header, behind, places):
    journal = header + behind
    names = f"{header.hex()} {journal.hex()}"
    yield f"cuts {names} => {runs(read(header, journal[:n]) for n in range(len(journal) + 1))}"
    for at in range(places):
        changed = (journal[:at] + bytes([byte]) + journal[at + 1:] for byte in range(256))
        yield f"changed-{at} {names} => {runs(read(header, it) for it in changed)}"


def rows():
    for behind in (EMPTY, EACH):
        yield from rows_of(FIRST, behind, len(FIRST + behind))
    for behind in (EMPTY, EACH):
        yield from rows_of(SECOND, behind, len(SECOND) + 1)
    for behind in (EMPTY, SUMMED):
        yield from rows_of(NEW, behind, len(NEW + behind))


def main():
    if sys.argv[1:]:
        sys.exit(__doc__)
    with open(FILE, "w", encoding="utf-8") as file:
        file.write("# Made by tests/outside/journal_rows.py. `[..]`: the records; else the fault; `*N`: N times in a row.\n")
        file.writelines(f"{row}\n" for row in rows())


main()
