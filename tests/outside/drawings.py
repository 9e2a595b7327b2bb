#!/usr/bin/env python3
"""The drawing of a schedule, made from docs/PROTOCOL.md and docs/FORMATS.md alone, by no code of the product.

    tests/outside/drawings.py SCHEDULE            prints the drawing that `cfarm sim SCHEDULE --svg` is to print
    tests/outside/drawings.py SCHEDULE --lines    prints the lines of `cfarm sim SCHEDULE`
    tests/outside/drawings.py SCHEDULE --row      prints the row of commands.txt that asks for the drawing
    tests/outside/drawings.py SCHEDULE --ask PROGRAM     asks that program for both, and says what differs; its drawing has to be XML whose text
                                                  is the lines, and no line of it over 1,024 bytes
    tests/outside/drawings.py --docs              writes the drawings in docs/drawings
    tests/outside/drawings.py --docs PROGRAM      says which of these are not what that program prints, and what differs as above"""
import os
import subprocess
import sys
import xml.etree.ElementTree as trees

ROOT = os.path.dirname(os.path.dirname(os.path.dirname(os.path.realpath(__file__))))
# The drawings in docs/drawings, and the schedule of each.
SHOWN = {"adoption": "examples/adoption.txt", "restart": "docs/drawings/restart.txt"}
MARKS = {
    "ring": 'm-5 0a5 5 0 0 0 10 0a5 5 0 0 0 -10 0" fill="white"/>',
    "disk": 'm-5 0a5 5 0 0 0 10 0a5 5 0 0 0 -10 0" fill="black"/>',
    "cross": 'm-6 -6l12 12m0 -12l-12 12" stroke="crimson" stroke-width="3"/>',
    "square": 'm-6 -6h12v12h-12z" fill="limegreen"/>',
    "dot": 'm-2 0a2 2 0 0 0 4 0a2 2 0 0 0 -4 0" fill="black"/>',
}
NAMES = ["m-4 0h8v14h-8z", "v14", "m-4 0h8v7h-8v7h8", "m-4 0h8v7h-8m8 0v7h-8", "m-4 0v7h8m0 -7v14", "m4 0h-8v7h8v7h-8", "m4 0h-8v14h8v-7h-8"]


class Node:
    def __init__(self, me, sizes):
        self.me, self.sizes = me, sizes
        self.offered, self.started, self.promised, self.accepted = False, 0, 0, None
        self.forget()

    def forget(self):
        self.ballot, self.proposed, self.promises, self.votes, self.learned = None, False, {}, {}, None

    def start(self):
        nodes = self.sizes[0]
        ballot = max(self.started, self.promised) + 1
        while ballot % nodes != self.me:
            ballot += 1
        if ballot > 65535:
            return None
        self.started = self.ballot = ballot
        self.proposed, self.promises = False, {}
        return ("prepare", ballot)

    def propose(self):
        if self.ballot is None or self.proposed or len(self.promises) < self.sizes[1]:
            return None
        reports = [report for report in self.promises.values() if report]
        if not reports and not self.offered:
            return None
        self.proposed = True
        return ("propose", self.ballot, max(reports)[1] if reports else self.me)

    def hear(self, message):
        """The answer, and whether the message is noted."""
        kind = message[0]
        if kind == "prepare":
            if message[1] <= self.promised:
                return None, False
            self.promised = message[1]
            return ("promise", self.me, message[1], self.accepted), False
        if kind == "propose":
            if message[1] < self.promised:
                return None, False
            self.promised, self.accepted = message[1], (message[1], message[2])
            return ("accepted", self.me, message[1], message[2]), False
        if kind == "promise":
            _, sender, ballot, report = message
            if ballot == self.ballot:
                self.promises[sender] = report
            return None, ballot == self.ballot
        _, sender, ballot, value = message
        if sender not in self.votes or self.votes[sender][0] <= ballot:
            self.votes[sender] = (ballot, value)
            voted = sum(vote[0] == ballot for vote in self.votes.values())
            if voted >= self.sizes[2] and self.learned is None:
                self.learned = value
        return None, self.votes[sender] == (ballot, value)


def said(message, node):
    kind = message[0]
    if kind == "prepare":
        return f"prepare {message[1]} from {node}"
    if kind == "propose":
        return f"propose {message[1]} {message[2]} from {node}"
    if kind == "accepted":
        return f"accepted {message[2]} {message[3]} from {node}"
    report = message[3]
    return f"promise {message[2]} from {node} " + ("none" if report is None else f"{report[0]}:{report[1]}")


def play(text):
    """How many nodes there are, for each command what is told, which mark stands where, and the arrow; and the last line."""
    lines = text.split("\n")
    numbers = [int(word) for word in lines[0].split(" ")[1:]]
    count = numbers[0]
    sizes = (count, count // 2 + 1, count // 2 + 1) if len(numbers) == 1 else tuple(numbers)
    nodes = [Node(me, sizes) for me in range(count)]
    sent, rows = [], []
    for row, line in enumerate(line for line in lines[1:] if line):
        word, *rest = line.split(" ")
        me = int(rest[0])
        node, message, mark, told, arrow = nodes[me], None, "dot", "none", None
        if word == "offer":
            if not node.offered:
                node.offered, told, mark = True, "offered", "ring"
        elif word == "restart":
            node.forget()
            told, mark = "restarted", "cross"
        elif word in ("start", "propose"):
            message = node.start() if word == "start" else node.propose()
            mark = "disk" if message else "dot"
            told = "refused 501" if word == "start" else "none"
        else:
            handed, sender, at = sent[int(rest[1]) - 1]
            before = node.learned
            message, noted = node.hear(handed)
            if message is None and before is None and node.learned is not None:
                told, mark = f"learned {node.learned}", "square"
            arrow = (sender, at, message is None and told == "none" and not noted)
        if message:
            sent.append((message, me, row))
            told = f"#{len(sent)} {said(message, me)}"
        rows.append((me, mark, told, arrow))
    return count, rows, "learned:" + "".join(" -" if node.learned is None else f" {node.learned}" for node in nodes)


def draw(text):
    count, rows, last = play(text)
    lane, height, ends, labels = lambda node: 40 + 80 * node, lambda row: 70 + 26 * row, 20 + 80 * count, 26 + 80 * count
    wide, high = 300 + 90 * count, 90 + 26 * len(rows)
    out = [f'<svg xmlns="http://www.w3.org/2000/svg" width="{wide}" height="{high}"\nfont-family="monospace" font-size="12" fill="none" stroke="black">'
           '<marker id="a" markerWidth="9" markerHeight="8" refX="12" refY="4" orient="auto"><path d="M0 0L9 4L0 8z" fill="black"/></marker>'
           f'<path d="M0 0H{wide}V{high}H0z" fill="white"/>']
    for node in range(count):
        out.append(f'<path\nd="M{lane(node)} 44V{54 + 26 * len(rows)}" stroke="silver"/><path d="M{lane(node)} 16{NAMES[node]}"/>')
    label = lambda row, line: f'<text x="{labels}" y="{height(row) + 4}" fill="black" stroke="none">{line}\n</text>'
    for row, (node, mark, told, arrow) in enumerate(rows):
        x, y = lane(node), height(row)
        out.append(f'<path d="M{x} {y}H{ends}" stroke="gainsboro"/>')
        if arrow:
            sender, at, dashed = arrow
            over = lane(sender) - 30 if sender == node else (lane(sender) + x) // 2
            down = (height(at) + y) // 2 + (12 if abs(sender - node) > 1 else 0)
            out.append(f'<path d="M{lane(sender)} {height(at)}Q{over} {down} {x} {y}"'
                       + (' stroke="gray" stroke-dasharray="5 4"' if dashed else "") + ' marker-end="url(#a)"/>')
        out.append(f'<path d="M{x} {y}{MARKS[mark]}{label(row, told)}')
    return "".join(out) + label(len(rows), last) + "</svg>"


def lines_of(text):
    _, rows, last = play(text)
    return "".join(f"{told}\n" for _, _, told, _ in rows) + last + "\n"


def ask(program, path, text):
    drawing = subprocess.run([program, "sim", path, "--svg"], stdout=subprocess.PIPE, check=True).stdout.decode()
    lines = subprocess.run([program, "sim", path], stdout=subprocess.PIPE, check=True).stdout.decode()
    found = [
        ("the drawing", drawing == draw(text)),
        ("the lines", lines == lines_of(text)),
        ("the labels", "".join(trees.fromstring(drawing).itertext()) == lines),
        ("a long line", max(len(line) for line in drawing.split("\n")) <= 1024),
    ]
    for what, holds in found:
        if not holds:
            print(f"{path}: {what}")
    return all(holds for _, holds in found)


def document(words):
    """Writes the drawings that the documents show; or, with a program, whether each is what it prints."""
    right = True
    for name, schedule in SHOWN.items():
        drawn, path = f"{ROOT}/docs/drawings/{name}.svg", f"{ROOT}/{schedule}"
        text = open(path).read()
        if not words:
            open(drawn, "w").write(draw(text))
            continue
        shown = subprocess.run([words[0], "sim", path, "--svg"], stdout=subprocess.PIPE, check=True).stdout
        if open(drawn, "rb").read() != shown:
            print(f"{drawn}: it is not what the program prints")
            right = False
        right = ask(words[0], path, text) and right
    return right


def main(words):
    if not words or words[0] == "--help":
        sys.exit(__doc__)
    if words[0] == "--docs":
        sys.exit(0 if document(words[1:]) else 1)
    text = open(words[0]).read()
    if words[1:] == ["--lines"]:
        print(lines_of(text), end="")
    elif words[1:] == ["--row"]:
        shown = draw(text).replace("\n", "\\n")
        print(f'run sim f --svg < %{text.encode().hex()} => 0 "{shown}" ""')
    elif words[1:2] == ["--ask"]:
        sys.exit(0 if ask(words[2], words[0], text) else 1)
    else:
        print(draw(text), end="")


main(sys.argv[1:])
