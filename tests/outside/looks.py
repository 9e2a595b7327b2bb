#!/usr/bin/env python3
"""What `cfarm log` and `cfarm fsck` must print, from docs/FORMATS.md alone, and whether a program prints that.

    tests/outside/looks.py --program PATH [--only log|fsck] [--quick]   tries the program over made journals and folders
    tests/outside/looks.py --log FILE                                   prints what `log` must print of a journal, and its status
    tests/outside/looks.py --fsck NAME,NAME.. FOLDER [--sizes N,Q,Q]    the same for `fsck`, of a folder that `build` does not refuse, and these functions

Journals of all forms, each record in them, each cut at each length and a small one with each byte changed; folders that the program's own `build` leaves
after few turns and many, journals of the first version among them, some of them broken. Of a folder that is refused the line and the status must be
those of `build`, and the files must be as they were."""
import argparse
import hashlib
import itertools
import os
import random
import shutil
import subprocess
import sys
import tempfile
from concurrent.futures import ThreadPoolExecutor

import aged

SEVEN = "int main(void){return 7;}"
THREE = """int putchar(int);
int twice(int x) { return x + x; }
int cube(int x) { int y; y = twice(x); return x * x * x + y - y; }
int main(void) { int i = 0; int s = 0; while (i < 3) { int r; r = cube(i); s = s + r; i = i + 1; } putchar('0' + s); return s; }
"""
FUNCTIONS = {SEVEN: ["main"], THREE: ["twice", "cube", "main"]}
NAMES = {402: "NotAJournal", 403: "BadRecord", 404: "OtherSource"}


# ---- a journal

def header_found(data):
    """The version, the header and its size; or the number of the fault and its byte."""
    if data[:4] == b"CFJ2":
        return (2, aged.header_of(data), 40) if len(data) >= 41 else (402, 0)
    if data[:4] == b"CFJ1":
        if len(data) < 39:
            return 402, 0
        return (404, 4) if data[4] % 2 == 0 else (1, aged.old_header_of(data), 38)
    if data[:4] == b"CFJF" and len(data) >= 41 and not aged.is_first_form(*data[4:7]):
        return 1, aged.old_header_of(data), 40
    return 402, 0


def front_of(data, at, most):
    """The bodies from the first gate on, where the gate is that ends them, and whether it is closed."""
    bodies = []
    while at < len(data):
        if data[at] != 1:
            return bodies, at, True
        size = int.from_bytes(data[at + 1:at + 5], "big")
        body = data[at + 5:at + 5 + size]
        if len(data) < at + 5 or len(body) < size or not aged.is_of_form(body, most):
            break
        bodies.append(body)
        at += 5 + size
    return bodies, at, False


def record_line(body):
    room, rest = aged.u16(body, 1), body[3:]
    numbers = [int.from_bytes(rest[it:it + 2], "big") for it in (0, 2, 4)]
    if body[0] == 1:
        return f"offered room {room} bytes {len(rest)} name {hashlib.sha256(rest).hexdigest()}\n"
    if body[0] == 6:
        return f"summary room {room} started {numbers[0]} promised {numbers[1]} accepted {numbers[2]} value {rest[6]}\n"
    word = {2: "started", 3: "proposed", 4: "promised", 5: "accepted"}[body[0]]
    value = f" value {rest[2]}" if body[0] in (3, 5) else ""
    return f"{word} room {room} ballot {numbers[0]}{value}\n"


def logged(data):
    """The status, the output and the line on standard error of `log`."""
    found = header_found(data)
    if len(found) == 2:
        return 4, "", f"journal {found[0]} {NAMES[found[0]]} at byte {found[1]}\n"
    version, (nodes, promise, accept, node, digest), size = found
    lines = f"journal {version} nodes {nodes} promise {promise} accept {accept} node {node} source {digest.hex()}\n"
    bodies, gate, is_closed = front_of(data, size, 6 if version == 2 else 5)
    lines += "".join(map(record_line, bodies))
    if is_closed:
        return 0, f"{lines}end {len(bodies)} records {gate + 1} bytes\n", ""
    return 4, lines, f"journal 403 BadRecord at byte {gate}\n"


# ---- a folder that is not refused

def journal_of(folder, node, header):
    """The bodies of a node's journal and its size to the closed gate and with it, as `fsck` reads it."""
    new, old = (read(path(folder, node)) for path in (aged.new_in, aged.old_in))
    if old[:1] == b"C":
        new = aged.migrated(header, old)
    elif not new and not old:
        return [], 0
    bodies, gate, _ = front_of(new, aged.HEAD, 6)
    return bodies, gate + 1


def votes_of(bodies):
    """The last vote of each room, with its ballot."""
    votes = {}
    for body in bodies:
        if body[0] == 5:
            votes[aged.u16(body, 1)] = (aged.u16(body, 3), body[5])
        elif body[0] == 6 and aged.u16(body, 7):
            votes[aged.u16(body, 1)] = (aged.u16(body, 7), body[9])
    return votes


def room_told(accept, votes):
    for vote in votes:
        by = [node for node, it in enumerate(votes) if vote and it and it[0] == vote[0]]
        if vote and len(by) >= accept:
            return f"chosen {vote[1]} ballot {vote[0]} by {' '.join(map(str, by))}"
    return "open"


def looked(folder, functions, sizes, digest):
    """The output of `fsck` over a folder that `build` does not refuse."""
    nodes, promise, accept = sizes
    found = [journal_of(folder, node, (nodes, promise, accept, node, digest)) for node in range(nodes)]
    lines = [f"node {node} {len(bodies)} records {size} bytes\n" for node, (bodies, size) in enumerate(found)]
    votes = [votes_of(bodies) for bodies, _ in found]
    for number, name in enumerate(functions):
        for place in range(4):
            told = room_told(accept, [it.get(4 * number + place) for it in votes])
            lines.append(f"{name} pass {place + 1} {told}\n")
    return "".join(lines) + "ok\n"


def lost(folder, nodes):
    """What is told of nodes that have no journal, where others have more than one without records."""
    sizes = [[len(read(f"{folder}/node{node}.{kind}")) for kind in ("cf2", "cfj")] for node in range(nodes)]
    if max(map(max, sizes)) <= aged.HEAD + 1:
        return ""
    return "".join(f"node {node} has no journal, others have: what it had voted is not known\n" for node, it in enumerate(sizes) if not any(it))


def read(path):
    try:
        with open(path, "rb") as file:
            return file.read()
    except FileNotFoundError:
        return b""


def write(path, data):
    with open(path, "wb") as file:
        file.write(data)


# ---- journals that are made

def bodies_made(draw, most):
    """A body of each kind, with small numbers and large ones."""
    made = []
    for code in range(1, most + 1):
        room = draw.choice([0, 1, 255, 256, 65535])
        size = draw.choice([0, 1, 7, 300]) if code == 1 else aged.SIZES[code]
        made.append(bytes([code]) + room.to_bytes(2, "big") + draw.randbytes(size))
    return made


def heads():
    """Headers of each form, some of which no farm has."""
    digest = hashlib.sha256(SEVEN.encode()).digest()
    for nodes, promise, accept, node in ((3, 2, 2, 0), (4, 3, 2, 3), (1, 1, 1, 0), (7, 4, 4, 255), (255, 128, 128, 9), (0, 0, 0, 0), (5, 1, 1, 4)):
        numbers = bytes([nodes, promise, accept, node])
        yield b"CFJ2" + numbers + digest, 6
        yield b"CFJF" + numbers + digest, 5
        yield b"CFJ1" + bytes([nodes, node]) + digest, 5


def journals(is_quick):
    """Journals, whole and broken."""
    draw = random.Random(1)
    yield from (b"", b"C", b"CFJ2", b"CFJ1", b"CFJF", b"CFJ3" + bytes(60), bytes(60), b"cfj2" + bytes(60), SEVEN.encode() * 3)
    for head, most in heads():
        for kinds in ([], *([it] for it in bodies_made(draw, 6)), bodies_made(draw, most), bodies_made(draw, 6) * 2):
            for end in (b"\x00", b"", b"\x02", b"\x01", b"\xff\x01", b"\x00" + aged.block(b"\x02\x00\x00\x00\x03") + b"\x00"):
                yield head + b"".join(map(aged.block, kinds)) + end
        for body in (b"", b"\x01", b"\x01\x00", b"\x00\x00\x00", b"\x02\x00\x00\x00", b"\x02\x00\x00\x00\x03\x00", b"\x07\x00\x00\x00\x03", b"\x06" + bytes(8), b"\x06" + bytes(10)):
            yield head + aged.block(b"\x04\x00\x01\x00\x03") + aged.block(body) + b"\x00"
        whole = head + b"".join(map(aged.block, bodies_made(draw, most))) + b"\x00"
        for length in range(0, len(whole), 1 if not is_quick or len(whole) < 120 else 7):
            yield whole[:length]
    for head, most in itertools.islice(heads(), 3):
        small = head + aged.block(b"\x01\x00\x02ab") + aged.block(b"\x05\x00\x02\x00\x04\x01") + aged.block(b"\x06" + bytes(9) if most == 6 else b"\x02\x00\x00\x00\x03") + b"\x00\x01"
        for place in range(len(small)):
            for byte in range(256) if not is_quick else {0, 1, 2, 255, small[place] ^ 1, small[place] ^ 128}:
                yield small[:place] + bytes([byte]) + small[place + 1:]


class Tries:
    def __init__(self, program, room):
        self.program, self.room, self.agree, self.all = program, room, 0, 0

    def run(self, words):
        ran = subprocess.run([self.program, *words], stdout=subprocess.PIPE, stderr=subprocess.PIPE, check=False)
        return ran.returncode, ran.stdout.decode(errors="replace"), ran.stderr.decode(errors="replace")

    def judge(self, what, told, wanted):
        self.all += 1
        self.agree += told == wanted
        if told != wanted and self.all - self.agree <= 20:
            print(f"{what}\n  wanted {wanted}\n  told   {told}", flush=True)

    # ---- log

    def log(self, data):
        handle, path = tempfile.mkstemp(dir=self.room)
        with os.fdopen(handle, "wb") as file:
            file.write(data)
        told = self.run(["log", path])
        os.remove(path)
        return told

    def try_logs(self, is_quick):
        made = list(dict.fromkeys(journals(is_quick)))
        with ThreadPoolExecutor(4) as pool:
            for data, told in zip(made, pool.map(self.log, made)):
                self.judge(f"log {data.hex()}", told, logged(data))
        path = os.path.join(self.room, "none")
        self.judge("log of no file", self.run(["log", path]), (2, "", f"file {path}\n"))
        print(f"log: {self.agree} of {self.all} agree", flush=True)

    # ---- fsck

    def words(self, text, folder, sizes):
        nodes, promise, accept = sizes
        file = os.path.join(self.room, f"{hashlib.sha256(text.encode()).hexdigest()[:8]}.c")
        write(file, text.encode())
        return [file, "--dir", folder, "--nodes", str(nodes), "--promise", str(promise), "--accept", str(accept)]

    def copy(self, folder):
        there = tempfile.mkdtemp(dir=self.room)
        shutil.copytree(folder, there, dirs_exist_ok=True)
        return there

    def refusal(self, text, folder, sizes):
        """The status and the line with which `build` refuses a copy of the folder, if it does."""
        there = self.copy(folder)
        status, _, line = self.run(["build", *self.words(text, there, sizes), "--turns", "0"])
        shutil.rmtree(there)
        line = "".join(it for it in line.splitlines(keepends=True) if not it.startswith("migrated "))
        return None if status in (0, 3) else (status, "", line.replace(there, folder))

    def fsck(self, what, text, folder, sizes):
        before = {it: read(os.path.join(folder, it)) for it in sorted(os.listdir(folder))}
        wanted = self.refusal(text, folder, sizes)
        if wanted is None:
            wanted = (0, looked(folder, FUNCTIONS[text], sizes, hashlib.sha256(text.encode()).digest()), lost(folder, sizes[0]))
        self.judge(what, self.run(["fsck", *self.words(text, folder, sizes)]), wanted)
        after = {it: read(os.path.join(folder, it)) for it in sorted(os.listdir(folder))}
        before.setdefault("cfarm.lock", b"")
        self.judge(f"{what}: files", sorted(after.items()), sorted(before.items()))
        return wanted[1]

    def built(self, text, sizes, turns, seed):
        folder = tempfile.mkdtemp(dir=self.room)
        self.run(["build", *self.words(text, folder, sizes), "--seed", str(seed), *(["--turns", str(turns)] if turns is not None else [])])
        return folder

    def broken(self, folder, sizes, draw):
        """Copies of a folder: a node's journal gone, aged, cut by records, changed, another node's, with records more."""
        nodes = sizes[0]
        for node in range(nodes):
            path, old = aged.new_in(folder, node), aged.old_in(folder, node)
            data = read(path)
            bodies, gate, _ = front_of(data, aged.HEAD, 6)
            head = data[:aged.HEAD]
            yield f"no node {node}", {path: b""}
            if all(aged.is_of_form(it, 5) for it in bodies):
                yield f"old node {node}", {path: b"", old: aged.aged(data)}
                yield f"old node {node} beside the new one", {old: aged.aged(data)}
                yield f"spent node {node}", {old: aged.spent(aged.aged(data))}
            yield f"only spent node {node}", {path: b"", old: aged.spent(data)}
            for count in sorted({0, 1, len(bodies) // 2, max(0, len(bodies) - 1), *(draw.randrange(len(bodies) + 1) for _ in range(3))}):
                yield f"node {node}, {count} records", {path: head + b"".join(map(aged.block, bodies[:count])) + b"\x00"}
            for body in (b"\x04\x00\x00\xff\xf0", b"\x05\x00\x01\xff\xf0\x00", b"\x05\x00\x03\x00\x01\x01", b"\x06\x00\x02" + bytes(7), b"\x06\xff\x00\x00\x00\x00\x09\x00\x00\x00", b"\x01\x00\x05offer"):
                yield f"node {node}, and {body.hex()}", {path: head + b"".join(map(aged.block, [*bodies, body])) + b"\x00"}
                yield f"node {node}, only {body.hex()}", {path: head + aged.block(body) + b"\x00"}
            yield f"node {node}, summed up", {path: aged.migrated(aged.header_of(data), aged.aged(data)) if all(aged.is_of_form(it, 5) for it in bodies) else data}
            yield f"node {node} is another's", {path: read(aged.new_in(folder, (node + 1) % nodes))}
            for _ in range(4):
                place = draw.randrange(len(data))
                yield f"node {node}, byte {place}", {path: data[:place] + bytes([data[place] ^ (1 << draw.randrange(8))]) + data[place + 1:]}
                yield f"node {node}, cut to {place}", {path: data[:place]}

    def try_folders(self, is_quick):
        before, agree, draw = self.all, self.agree, random.Random(2)
        seen = {"open": 0, "chosen": 0}
        for text, sizes in itertools.product(FUNCTIONS, ((3, 2, 2), (2, 1, 2), (4, 3, 2), (7, 4, 4))):
            for turns, seed in ((None, 1), (0, 1), *((it, it) for it in ((8, 30) if is_quick else (1, 3, 8, 14, 20, 30, 45, 70)))):
                folder = self.built(text, sizes, turns, seed)
                what = f"fsck of {FUNCTIONS[text]}, sizes {sizes}, turns {turns}"
                told = self.fsck(what, text, folder, sizes)
                for word in seen:
                    seen[word] += told.count(f" {word}")
                cases = list(self.broken(folder, sizes, draw))
                if is_quick or turns is not None:
                    cases = draw.sample(cases, min(len(cases), 8))
                for name, files in cases:
                    there = self.copy(folder)
                    for path, data in files.items():
                        path = path.replace(folder, there)
                        if data:
                            write(path, data)
                        elif os.path.exists(path):
                            os.remove(path)
                    self.fsck(f"{what}, {name}", text, there, sizes)
                    shutil.rmtree(there)
                shutil.rmtree(folder)
        folder = self.built(SEVEN, (3, 2, 2), None, 1)
        for text, sizes in ((THREE, (3, 2, 2)), (SEVEN, (5, 3, 3)), (SEVEN, (2, 1, 2)), (SEVEN, (4, 1, 2)), ("int main(void){return x;}", (3, 2, 2))):
            wanted = self.refusal(text, folder, sizes)
            self.judge(f"fsck by another {text}, {sizes}", self.run(["fsck", *self.words(text, folder, sizes)]), wanted)
        for words in (["fsck", "none.c", "--dir", folder], ["fsck", self.words(SEVEN, folder, (3, 2, 2))[0], "--dir", folder + "/none"]):
            self.judge(" ".join(words), self.run(words), self.run(["build", *words[1:]]))
        print(f"fsck: {self.agree - agree} of {self.all - before} agree; rooms {seen}", flush=True)


def main():
    ask = argparse.ArgumentParser(description=__doc__, formatter_class=argparse.RawDescriptionHelpFormatter)
    ask.add_argument("folder", nargs="?")
    for name in ("--program", "--only", "--log", "--fsck", "--text"):
        ask.add_argument(name)
    ask.add_argument("--sizes", default="3,2,2")
    ask.add_argument("--quick", action="store_true")
    said = ask.parse_args()
    if said.log:
        status, out, line = logged(read(said.log))
        sys.stdout.write(out + line + f"status {status}\n")
        return 0
    if said.fsck:
        sizes = tuple(map(int, said.sizes.split(",")))
        sys.stdout.write(looked(said.folder, said.fsck.split(","), sizes, hashlib.sha256(read(said.text) if said.text else SEVEN.encode()).digest()))
        return 0
    with tempfile.TemporaryDirectory(prefix="looks-") as room:
        tries = Tries(os.path.realpath(said.program), room)
        if said.only != "fsck":
            tries.try_logs(said.quick)
        if said.only != "log":
            tries.try_folders(said.quick)
    return int(tries.agree != tries.all)


if __name__ == "__main__":
    sys.exit(main())
