#!/usr/bin/env python3
"""A second maker of linked programs and their bundles, in plain Python, which knows docs/FORMATS and docs/PASSES and nothing of the
product; and what `verify`, `emit` and `judge` have to say of what it makes.

    tests/outside/bundles.py --program PATH                 all of it, of this program
    tests/outside/bundles.py --program PATH --only changes  one part of it: examples, drawn, changes, exchanged, lengths, judged
    tests/outside/bundles.py rows FOLDER                    writes the files of a few rows into the folder, and prints the rows: command lines, what
                                                            they print and their status, by the rules alone
    tests/outside/bundles.py make TEXT RTL PROGRAM BUNDLE   of a C text and what `emit TEXT --of rtl` wrote: a linked program and its bundle

Each register lies in a slot, nothing is improved, and blocks come in the order of their nodes: what is made is accepted only if these
rules are read here as the product reads them, and it has to be what `emit` writes where no seed is given.

examples: of each example, what is made here, by `emit` with seeds and by `build --bundle` is verified, and no bundle by another program.
drawn: the same of a hundred drawn programs, with the offers of two functions exchanged, an accepted offer in the place of another, each
form of one seed emitted twice, and the program of another seed.
changes: each byte of a small bundle, of its program and of its text is changed in three ways, and each is cut at each length: a refusal by
name, or yes where the byte is one of a certificate. exchanged: the offers of two functions exchanged, an offer replaced by another that
its pass accepts, offers of a pass left out or refused, another text, other names, other globals. lengths: numbers that promise more bytes
than are there cost neither memory nor time. judged: each offer by itself. It prints what is wrong, and counts; its status is 1 where
something was."""
import argparse
import concurrent.futures
import hashlib
import os
import re
import struct
import subprocess
import sys
import tempfile

ROOT = os.path.dirname(os.path.dirname(os.path.dirname(os.path.realpath(__file__))))
FORMS = {101: "Short", 102: "BadTag", 103: "NotCanonical", 104: "TooLarge"}
ARGUMENTS = {**{o: 1 for o in range(1, 5)}, **{o: 2 for o in range(5, 28)}}
TESTED = {0: 1, **{c: 2 for c in range(1, 7)}}


class Bytes:
    def __init__(self, text):
        self.text, self.at = text, 0

    def take(self, count):
        found = self.text[self.at:self.at + count]
        assert len(found) == count, "short"
        self.at += count
        return found

    def u8(self):
        return self.take(1)[0]

    def u16(self):
        return struct.unpack(">H", self.take(2))[0]

    def u32(self):
        return struct.unpack(">I", self.take(4))[0]

    def optional(self, part):
        return part() if self.u8() else None


def u8(n):
    return struct.pack(">B", n)


def u16(n):
    return struct.pack(">H", n)


def u32(n):
    return struct.pack(">I", n)


def optional(part, value):
    return b"\0" if value is None else b"\1" + part(value)


def read_node(b):
    """A node of RTL: its code and its parts, the registers that it reads, the one that it writes, and where it goes on."""
    code = b.u8()
    if code == 0:
        return code, (), [], None, [b.u16()]
    if code == 1:
        target, word, after = b.u16(), b.u32(), b.u16()
        return code, (word,), [], target, [after]
    if code == 2:
        target, source, after = b.u16(), b.u16(), b.u16()
        return code, (), [source], target, [after]
    if code == 3:
        operator, target = b.u8(), b.u16()
        read = [b.u16() for _ in range(ARGUMENTS[operator])]
        return code, (operator,), read, target, [b.u16()]
    if code == 4:
        target, cells, index = b.u16(), b.u16(), b.u16()
        return code, (cells,), [index], target, [b.u16()]
    if code == 5:
        cells, index, source = b.u16(), b.u16(), b.u16()
        return code, (cells,), [index, source], None, [b.u16()]
    if code == 6:
        callee = b.u8()
        read = [b.u16() for _ in range(b.u8())]
        target = b.optional(b.u16)
        return code, (callee,), read, target, [b.u16()]
    if code == 7:
        source, target = b.u16(), b.optional(b.u16)
        return code, (), [source], target, [b.u16()]
    if code == 8:
        condition = b.u8()
        read = [b.u16() for _ in range(TESTED[condition])]
        return code, (condition,), read, None, [b.u16(), b.u16()]
    assert code == 9, code
    result = b.optional(b.u16)
    return code, (), [] if result is None else [result], None, []


def read_program(text):
    b = Bytes(text)
    assert b.take(5) == b"CFP1\2"
    for _ in range(b.u16()):
        b.u32()
        for _ in range(b.u32()):
            b.u32()
    globals_text = text[5:b.at]
    functions = []
    for _ in range(b.u8()):
        name = b.take(b.u8())
        first = b.at
        assert b.u8() == 2
        parameters = [b.u16() for _ in range(b.u8())]
        registers, entry = b.u16(), b.u16()
        nodes = [read_node(b) for _ in range(b.u16())]
        functions.append((name, text[first:b.at], parameters, registers, entry, nodes))
    assert b.at == len(text), "bytes behind the program"
    return globals_text, functions


def marked(entry, nodes):
    edges = [[] for _ in nodes]
    for n, node in enumerate(nodes):
        for s in node[4]:
            edges[s].append(n)
    return [n for n, into in enumerate(edges) if n == entry or len(into) != 1 or into[0] >= n]


def live(nodes):
    before = [set() for _ in nodes]
    changed = True
    while changed:
        changed = False
        for n in range(len(nodes) - 1, -1, -1):
            code, parts, read, written, after = nodes[n]
            here = set().union(*(before[s] for s in after)) - {written} | set(read)
            if here != before[n]:
                before[n], changed = here, True
    return before


def register(r):
    return b"\0" + u8(r)


def slot(s):
    return b"\1" + u16(s)


def block(node):
    """The moves before, the instruction without where it goes on, and the moves after."""
    code, parts, read, written, after = node
    fetch = [(register(i), slot(r)) for i, r in enumerate(read)]
    keep = [] if written is None else [(slot(written), register(0))]
    if code == 0:
        return [], b"\0", []
    if code == 1:
        return [], b"\1" + u8(0) + u32(parts[0]), keep
    if code == 2:
        return fetch, b"\0", keep
    if code == 3:
        return fetch, b"\3" + u8(parts[0]) + u8(0) + bytes(range(len(read))), keep
    if code == 4:
        return fetch, b"\4" + u8(0) + u16(parts[0]) + u8(0), keep
    if code == 5:
        return fetch, b"\5" + u16(parts[0]) + u8(0) + u8(1), []
    if code == 6:
        return [], b"\6" + u8(parts[0]) + u8(len(read)) + b"".join(map(slot, read)) + optional(slot, written), []
    if code == 7:
        return fetch, b"\7" + u8(0) + optional(u8, None if written is None else 0), keep
    if code == 8:
        return fetch, b"\x08" + u8(parts[0]) + bytes(range(len(read))), []
    return fetch, b"\x09" + optional(u8, 0 if read else None), []


def moves_text(moves):
    return u8(len(moves)) + b"".join(target + source for target, source in moves)


def frame(parameters, registers):
    return u8(len(parameters)) + b"".join(map(slot, parameters)) + u16(registers)


def ltl(parameters, registers, entry, nodes):
    text = b"\3" + frame(parameters, registers) + u16(entry) + u16(len(nodes))
    for node in nodes:
        before, act, behind = block(node)
        text += moves_text(before) + act + b"".join(map(u16, node[4]))
        if node[0] not in (8, 9):
            text += moves_text(behind)
    return text


def reached(entry, nodes):
    found, left = {entry}, [entry]
    while left:
        for s in nodes[left.pop()][4]:
            if s not in found:
                found.add(s)
                left.append(s)
    return [entry] + sorted(found - {entry})


def linear(parameters, registers, order, nodes):
    code = []
    for at, n in enumerate(order):
        follows = order[at + 1] if at + 1 < len(order) else None
        before, act, behind = block(nodes[n])
        code.append(b"\x0a" + u16(n))
        code += [b"\2" + target + source for target, source in before]
        after = nodes[n][4]
        if nodes[n][0] == 8:
            code.append(act + u16(after[0]))
            after = after[1:]
        elif act != b"\0":
            code.append(act)
        code += [b"\2" + target + source for target, source in behind]
        if after and after[0] != follows:
            code.append(b"\x0b" + u16(after[0]))
    return b"\4" + frame(parameters, registers) + u32(len(code)) + b"".join(code)


def equations(entry, nodes):
    before, rows = live(nodes), []
    for n in marked(entry, nodes):
        if before[n]:
            rows.append(u16(n) + u16(len(before[n])) + b"".join(u16(r) + slot(r) for r in sorted(before[n])))
    return u16(len(rows)) + b"".join(rows)


def offers_of(function, order=None):
    """The four written offers, and the output of the last."""
    name, rtl, parameters, registers, entry, nodes = function
    order = order or reached(entry, nodes)
    third, fourth = ltl(parameters, registers, entry, nodes), linear(parameters, registers, order, nodes)
    nothing = u16(0)
    return [u8(17) + rtl + rtl + nothing, u8(18) + rtl + rtl + nothing, u8(19) + rtl + third + equations(entry, nodes),
            u8(4) + third + fourth + u16(len(order)) + b"".join(map(u16, order))], fourth


class Made:
    """A linked program and its bundle, in parts: the names, the offers of each function, and what each comes to."""

    def __init__(self, text, rtl):
        self.digest = hashlib.sha256(text).digest()
        self.globals_text, functions = read_program(rtl)
        self.names = [function[0] for function in functions]
        self.functions = functions
        made = [offers_of(function) for function in functions]
        self.offers = [offers for offers, last in made]
        self.last = [last for offers, last in made]

    def program(self):
        named = [u8(len(name)) + name + last for name, last in zip(self.names, self.last)]
        return b"CFP1\4" + self.globals_text + u8(len(named)) + b"".join(named)

    def bundle(self):
        blocks = [b"".join(u32(len(offer)) + offer for offer in offers) for offers in self.offers]
        return b"CFB1" + self.digest + u8(len(blocks)) + b"".join(blocks)

    def certificates(self):
        """The places of the bundle's bytes that stand in a certificate."""
        at, found = 37, set()
        for offers, function in zip(self.offers, self.functions):
            rtl, third, last = function[1], offers[2], self.last[self.offers.index(offers)]
            inner = [1 + 2 * len(rtl), 1 + 2 * len(rtl), None, None]
            inner[2] = 1 + len(rtl) + self.thirds(function)
            inner[3] = 1 + self.thirds(function) + len(last)
            for offer, begin in zip(offers, inner):
                at += 4
                found |= set(range(at + begin, at + len(offer)))
                at += len(offer)
        return found

    @staticmethod
    def thirds(function):
        name, rtl, parameters, registers, entry, nodes = function
        return len(ltl(parameters, registers, entry, nodes))


def make(text, rtl):
    made = Made(text, rtl)
    return made.program(), made.bundle()




# ---- a few texts, and what they are translated to, worked out by hand

SEVEN = b"int main(void){return 7;}\n"
THREE = b"int one(void){return 1;}int two(int x){return x+1;}int main(void){return 3;}\n"
WORDS = b"int g[2];int main(void){return 0;}\n"


def returned(word):
    """A function without parameters: return r1; r1 = the word, which comes first. Lowering gives it a variable, r0."""
    return b"\2" + u8(0) + u16(2) + u16(1) + u16(2) + b"\x09\1" + u16(1) + b"\1" + u16(1) + u32(word) + u16(0)


def rtl_program(functions, globals_text=u16(0)):
    named = [u8(len(name)) + name + code for name, code in functions]
    return b"CFP1\2" + globals_text + u8(len(named)) + b"".join(named)


# return r2; r2 = AddS(r0, r3); r3 = 1, which comes first. The variables are r0, the parameter, and r1
SUM = b"\2" + u8(1) + u16(0) + u16(4) + u16(2) + u16(3) + b"\x09\1" + u16(2)
SUM += b"\3" + u8(5) + u16(2) + u16(0) + u16(3) + u16(0) + b"\1" + u16(3) + u32(1) + u16(1)
SEVEN_RTL = rtl_program([(b"main", returned(7))])
THREE_RTL = rtl_program([(b"one", returned(1)), (b"two", SUM), (b"main", returned(3))])
WORDS_RTL = rtl_program([(b"main", returned(0))], u16(1) + u32(2) + u32(0))


def sha(data):
    return hashlib.sha256(data).hexdigest()


def verified(made):
    return 0, f"verified {len(made.names)} functions {sha(made.program())}\n", ""


def other_order(made, at):
    """The layout of a function with all nodes but the entry falling: its fourth offer is another, and is accepted."""
    order = reached(made.functions[at][4], made.functions[at][5])
    made.offers[at], made.last[at] = offers_of(made.functions[at], order[:1] + order[1:][::-1])
    return made


def set_offer(made, at, place, offer):
    made.offers[at] = made.offers[at][:place] + [offer] + made.offers[at][place + 1:]
    return made


def bad_bundles(text, rtl):
    """Bundles that are refused, with what is refused: the part of the line behind `refused`, where % stands for the bundle's path."""
    made = Made(text, rtl)
    first, second = next((i, j) for j in range(len(made.offers)) for i in range(j) if made.functions[i][1] != made.functions[j][1])
    many = next(at for at, function in enumerate(made.functions) if len(reached(function[4], function[5])) > 2)
    names = [name.decode() for name in made.names]

    exchanged = Made(text, rtl)
    exchanged.offers[first], exchanged.offers[second] = exchanged.offers[second], exchanged.offers[first]
    yield "exchanged", exchanged.bundle(), f"602 Unchained in {names[first]} pass 1"
    for place in range(4):
        one = set_offer(Made(text, rtl), second, place, made.offers[first][place])
        yield f"exchanged pass {place + 1}", one.bundle(), f"602 Unchained in {names[second]} pass {place + 1}"
    yield "another order", other_order(Made(text, rtl), many).bundle(), f"604 OtherProgram in {names[many]}"
    last = made.offers[many][3]
    order = reached(made.functions[many][4], made.functions[many][5])
    cut = last[:-2 * len(order)] + u16(order[-1]) + last[len(last) - 2 * len(order) + 2:]
    yield "an order that begins elsewhere", set_offer(Made(text, rtl), many, 3, cut).bundle(), f"301 Refused in {names[many]} pass 4 shape"
    fewer = Made(text, rtl)
    fewer.offers = fewer.offers[:-1]
    yield "one function fewer", fewer.bundle(), "603 Names in %"
    more = Made(text, rtl)
    more.offers = more.offers + more.offers[-1:]
    yield "one function more", more.bundle(), "603 Names in %"
    other = Made(text, rtl)
    other.digest = hashlib.sha256(text + b"\n").digest()
    yield "another text's digest", other.bundle(), "404 OtherSource in %"
    yield "bytes behind it", made.bundle() + b"\0", "103 NotCanonical in %"
    yield "a program", made.program(), "102 BadTag in %"
    yield "nothing", b"", "101 Short in %"
    yield "65 functions", made.bundle()[:36] + u8(65) + made.bundle()[37:], "104 TooLarge in %"
    yield "four thousand million bytes", made.bundle()[:37] + u32(0xffffffff) + made.bundle()[41:], "101 Short in %"


def bad_programs(text, rtl):
    """The same of programs, where % stands for the program's path."""
    made = Made(text, rtl)
    names = [name.decode() for name in made.names]
    renamed = Made(text, rtl)
    renamed.names = [b"other" if at == 0 and name != b"main" else name for at, name in enumerate(renamed.names)]
    if renamed.names != made.names:
        yield "another name", renamed.program(), "603 Names in %"
    if len(names) > 1 and names[-1] == "main":
        swapped = Made(text, rtl)
        for part in (swapped.names, swapped.offers, swapped.last, swapped.functions):
            part[0], part[1] = part[1], part[0]
        yield "another order of names", swapped.program(), "603 Names in %"
    words = Made(text, rtl)
    words.globals_text = u16(1) + u32(1) + u32(0) if words.globals_text == u16(0) else u16(0)
    yield "other globals", words.program(), "604 OtherProgram in %"
    for at, function in enumerate(made.functions):
        if len(reached(function[4], function[5])) > 2:
            yield f"{names[at]} in another order", other_order(Made(text, rtl), at).program(), f"604 OtherProgram in {names[at]}"
            break
    yield "bytes behind it", made.program() + b"\0", "103 NotCanonical in %"
    yield "cut", made.program()[:-1], "101 Short in %"
    yield "a bundle", made.bundle(), "102 BadTag in %"
    yield "nothing", b"", "101 Short in %"


# ---- the program

class Runs:
    def __init__(self, program, folder):
        self.program, self.folder = os.path.abspath(program), folder
        self.faults, self.count = [], 0

    def run(self, *words):
        done = subprocess.run([self.program, *words], cwd=self.folder, stdout=subprocess.PIPE, stderr=subprocess.PIPE, timeout=300)
        return done.returncode, done.stdout, done.stderr.decode("utf-8", "replace")

    def put(self, name, data):
        with open(os.path.join(self.folder, name), "wb") as out:
            out.write(data)
        return name

    def expect(self, what, found, wanted):
        self.count += 1
        if found != wanted:
            self.faults.append(f"{what}: {found} and not {wanted}")

    def verify(self, text, program, bundle):
        status, out, err = self.run("verify", text, "--program", program, "--bundle", bundle)
        return status, out.decode("utf-8", "replace"), err

    def emit(self, text, form, seed=None):
        status, out, err = self.run("emit", text, "--of", form, *([] if seed is None else ["--seed", str(seed)]))
        if status or err:
            self.faults.append(f"emit {text} --of {form} --seed {seed}: {status} {err}")
        return out


def examples(runs, texts):
    """Whatever makes the offers, the bundle is verified with its own program, and with no other."""
    has_bundle = b"--bundle" in runs.run("build", "--help")[1]
    for name, text in texts:
        path = runs.put(name, text)
        made = Made(text, runs.emit(path, "rtl"))
        pairs = [("made here", made.program(), made.bundle())]
        pairs += [(f"seed {seed}", runs.emit(path, "linear", seed), runs.emit(path, "bundle", seed)) for seed in (None, 1, 2)]
        runs.expect(f"{name}: the baselines", pairs[1][1:], pairs[0][1:])
        if has_bundle:
            for seed in (1, 2):
                folder = f"{name}.{seed}"
                os.mkdir(os.path.join(runs.folder, folder))
                built = runs.run("build", path, "--dir", folder, "--seed", str(seed), "--bundle", f"{folder}/bundle")
                if built[0]:
                    runs.faults.append(f"build {name}: {built}")
                    continue
                parts = [open(os.path.join(runs.folder, folder, part), "rb").read() for part in ("linked.cfp", "bundle")]
                pairs.append((f"build, seed {seed}", *parts))
        for at, (what, program, bundle) in enumerate(pairs):
            line = f"verified {len(made.names)} functions {sha(program)}\n"
            p, b = runs.put(f"{name}.{at}.cfp", program), runs.put(f"{name}.{at}.cfb", bundle)
            runs.expect(f"{name}, {what}", runs.verify(path, p, b), (0, line, ""))
            for other, (whose, another, _) in enumerate(pairs):
                if another != program:
                    found = runs.verify(path, f"{name}.{other}.cfp", b) if other < at else None
                    if found and not (found[0] == 1 and re.fullmatch(r"refused 604 OtherProgram in \w+\n", found[2])):
                        runs.faults.append(f"{name}, the bundle of {what} with the program of {whose}: {found}")


def drawn_texts(count):
    """The first programs of those that are drawn for the rows."""
    with open(f"{ROOT}/crates/worked_rows/data/drawn.txt", encoding="utf-8") as rows:
        lines = [line.split("\t") for line in rows if line.strip() and not line.startswith("#")]
    return [line[1].encode() + b"\n" for line in lines[:count]]


def drawn_one(runs, at, text):
    """One drawn program, by itself: the names of its files begin with its number."""
    name = f"drawn{at}"
    path = runs.put(f"{name}.c", text)
    made = Made(text, runs.emit(path, "rtl"))
    pairs = [(made.program(), made.bundle())] + [(runs.emit(path, "linear", seed), runs.emit(path, "bundle", seed)) for seed in (None, 3, 4)]
    runs.expect(f"{name}: the baselines", pairs[1], pairs[0])
    runs.expect(f"{name}: one seed twice", (runs.emit(path, "linear", 3), runs.emit(path, "bundle", 3)), pairs[2])
    for which, (program, bundle) in enumerate(pairs):
        p, b = runs.put(f"{name}.{which}.cfp", program), runs.put(f"{name}.{which}.cfb", bundle)
        runs.expect(f"{name}.{which}", runs.verify(path, p, b), (0, f"verified {len(made.names)} functions {sha(program)}\n", ""))
    if pairs[2][0] != pairs[0][0]:
        status, out, err = runs.verify(path, f"{name}.2.cfp", f"{name}.0.cfb")
        runs.expect(f"{name}: the program of a seed", (status, out, bool(re.fullmatch(r"refused 604 OtherProgram in \w+\n", err))), (1, "", True))
    others = [(i, j) for j in range(len(made.offers)) for i in range(j) if made.functions[i][1] != made.functions[j][1]]
    many = [number for number, function in enumerate(made.functions) if len(reached(function[4], function[5])) > 2]
    if others:
        for what, data, line in bad_bundles(text, runs.emit(path, "rtl")) if many else ():
            if what.startswith(("exchanged", "another order", "an order")):
                wrong = runs.put(f"{name}.wrong.cfb", data)
                runs.expect(f"{name}: {what}", runs.verify(path, f"{name}.0.cfp", wrong), (1, "", f"refused {line.replace('%', wrong)}\n"))


def drawn(runs, count):
    with concurrent.futures.ThreadPoolExecutor(os.cpu_count()) as pool:
        list(pool.map(lambda job: drawn_one(runs, *job), enumerate(drawn_texts(count))))


def is_refusal(line, bundle):
    """A line that names a fault of the forms, or of the offers."""
    form = re.fullmatch(r"refused (10[1-4]) (\w+) in (.+)\n", line)
    if form:
        return FORMS[int(form[1])] == form[2] and form[3] == bundle
    return bool(re.fullmatch(r"refused (602 Unchained in \w+ pass [1-4]|301 Refused in \w+ pass [1-4] (shape|node \d+)|604 OtherProgram in \w+)\n", line))


def changed(data):
    for at in range(len(data)):
        for flip in (1, 128, 255 if data[at] not in (0, 255) else 2):
            yield at, data[:at] + bytes([data[at] ^ flip]) + data[at + 1:]


def changes(runs, text, rtl):
    """Each byte and each length."""
    made = Made(text, rtl)
    text_path, program_path, bundle_path = runs.put("small.c", text), runs.put("small.cfp", made.program()), runs.put("small.cfb", made.bundle())
    runs.expect("small", runs.verify(text_path, program_path, bundle_path), verified(made))
    certificates = made.certificates()

    def one(job):
        kind, at, data = job
        path = runs.put(f"changed.{kind}.{hashlib.sha256(data).hexdigest()[:24]}", data)
        words = {"text": (path, program_path, bundle_path), "program": (text_path, path, bundle_path), "bundle": (text_path, program_path, path)}
        found = runs.verify(*words[kind])
        os.remove(os.path.join(runs.folder, path))
        return kind, at, path, found

    def is_right(kind, at, path, found):
        status, out, err = found
        if status == 0:
            return kind == "bundle" and at in certificates and (out, err) == verified(made)[1:]
        if status != 1 or out:
            return False
        if kind == "text":
            return bool(re.fullmatch(r"refused 2\d\d \w+( at \d+| in \w+)\n", err)) or err == f"refused 404 OtherSource in {bundle_path}\n"
        if kind == "bundle" and 4 <= at < 36:
            return err == f"refused 404 OtherSource in {path}\n"
        if kind == "program" and re.fullmatch(rf"refused (603 Names|604 OtherProgram) in {re.escape(path)}\n", err):
            return True
        return is_refusal(err, path) or (kind == "bundle" and at == 36 and err == f"refused 603 Names in {path}\n")

    jobs = [("bundle", at, data) for at, data in changed(made.bundle())] + [("program", at, data) for at, data in changed(made.program())]
    jobs += [("text", at, data) for at, data in changed(text)]
    cuts = [(kind, data[:at]) for kind, data in (("bundle", made.bundle()), ("program", made.program())) for at in range(len(data))]
    lines = {}
    with concurrent.futures.ThreadPoolExecutor(os.cpu_count()) as pool:
        for kind, at, path, found in pool.map(one, jobs):
            runs.count += 1
            lines[re.sub(r"changed\S*|\d+$", "", found[2].strip()) or "yes"] = lines.get(re.sub(r"changed\S*|\d+$", "", found[2].strip()) or "yes", 0) + 1
            if not is_right(kind, at, path, found):
                runs.faults.append(f"{kind} changed at {at}: {found}")
        for kind, at, path, found in pool.map(one, [(kind, -1, data) for kind, data in cuts]):
            runs.expect(f"{kind} cut", found, (1, "", f"refused 101 Short in {path}\n"))
        for kind, at, path, found in pool.map(one, [("text", -1, text[:at]) for at in range(len(text))]):
            runs.count += 1
            if not is_right(kind, at, path, found):
                runs.faults.append(f"text cut: {found}")
    for line in sorted(lines):
        print(f"  {lines[line]:6} {line}")


def exchanged(runs, texts):
    """What a bundle or a program is refused for, by name."""
    for name, text, rtl in texts:
        made = Made(text, rtl)
        text_path, program_path, bundle_path = runs.put(name, text), runs.put("right.cfp", made.program()), runs.put("right.cfb", made.bundle())
        runs.expect(f"{name}", runs.verify(text_path, program_path, bundle_path), verified(made))
        for what, data, line in bad_bundles(text, rtl):
            path = runs.put("wrong.cfb", data)
            runs.expect(f"{name}: a bundle, {what}", runs.verify(text_path, program_path, path), (1, "", f"refused {line.replace('%', path)}\n"))
        for what, data, line in bad_programs(text, rtl):
            path = runs.put("wrong.cfp", data)
            runs.expect(f"{name}: a program, {what}", runs.verify(text_path, path, bundle_path), (1, "", f"refused {line.replace('%', path)}\n"))
        other = runs.put("other.c", text + b"\n")
        runs.expect(f"{name}: another text", runs.verify(other, program_path, bundle_path), (1, "", f"refused 404 OtherSource in {bundle_path}\n"))


def lengths(runs):
    """Numbers that promise more than is there: the memory of the whole process stays what it is for a right bundle."""
    made = Made(SEVEN, SEVEN_RTL)
    text_path, program_path = runs.put("seven.c", SEVEN), runs.put("seven.cfp", made.program())

    def peak(bundle):
        path = runs.put("long.cfb", bundle)
        words = [runs.program, "verify", text_path, "--program", program_path, "--bundle", path]
        child = subprocess.Popen(words, cwd=runs.folder, stdout=subprocess.DEVNULL, stderr=subprocess.DEVNULL)
        _, status, usage = os.wait4(child.pid, 0)
        return os.waitstatus_to_exitcode(status), usage.ru_maxrss

    whole = made.bundle()
    status, least = peak(whole)
    runs.expect("lengths: a right one", status, 0)
    at = 37
    for offer in made.offers[0]:
        for count in (0xffffffff, 0x7fffffff, 0x40000000, len(whole)):
            status, most = peak(whole[:at] + u32(count) + whole[at + 4:])
            runs.expect(f"lengths: {count} at {at}", status, 1)
            runs.count += 1
            if most > least + 2048:
                runs.faults.append(f"lengths: {count} at {at} takes {most} KB, a right bundle {least}")
        at += 4 + len(offer)


def judged(runs, texts):
    """Each offer by itself, under its function's name and under another's."""
    for name, text, rtl in texts:
        path, made = runs.put(name, text), Made(text, rtl)
        for at, offers in enumerate(made.offers):
            for place, offer in enumerate(offers):
                written = runs.put("offer", offer)
                for under, function in enumerate(made.functions):
                    is_own = place > 0 or function[1] == made.functions[at][1]
                    wanted = (0, f"accepted pass {place + 1}\n".encode(), "") if is_own else (1, b"", "refused 602 Unchained\n")
                    found = runs.run("judge", path, "--function", function[0].decode(), "--offer", written)
                    runs.expect(f"{name}: pass {place + 1} of {made.names[at]} under {function[0]}", found, wanted)
        offer = made.offers[0][0]
        main = made.names[-1].decode()
        for what, words, line in (
            ("no function of the name", (made.offers[0][3], "none"), "603 Names in none"), ("nothing", (b"", main), "101 Short in offer"),
            ("another first byte", (b"\1" + offer[1:], main), "102 BadTag in offer"), ("cut", (offer[:-1], main), "101 Short in offer"),
            ("a byte behind it", (offer + b"\0", main), "103 NotCanonical in offer"),
        ):
            runs.put("offer", words[0])
            runs.expect(f"{name}: {what}", runs.run("judge", path, "--function", words[1], "--offer", "offer"), (1, b"", f"refused {line}\n"))


def vectors(runs, path):
    """Written offers from outside, with what their checks say: pass, offer, `yes`, `shape` or `node:N`."""
    text = runs.put("seven.c", SEVEN)
    for row in open(path, encoding="ascii"):
        number, offer, answer = row.split()
        if number == "1":
            continue
        runs.put("offer", bytes.fromhex(offer))
        wanted = (0, f"accepted pass {number}\n".encode(), "") if answer == "yes" else (1, b"", f"refused 301 Refused pass {number} {answer.replace(':', ' ')}\n")
        runs.expect(f"{path}: {row.strip()[:60]}", runs.run("judge", text, "--function", "main", "--offer", "offer"), wanted)


SMALL = (("seven.c", SEVEN, SEVEN_RTL), ("three.c", THREE, THREE_RTL), ("words.c", WORDS, WORDS_RTL))


def all_runs(program, only, rows):
    with tempfile.TemporaryDirectory() as folder:
        runs = Runs(program, folder)
        if only in (None, "examples"):
            names = sorted(name for name in os.listdir(f"{ROOT}/examples") if name.endswith(".c"))
            texts = [(name, open(f"{ROOT}/examples/{name}", "rb").read()) for name in names]
            examples(runs, texts + [("three.c", THREE)])
            for name, text, rtl in SMALL:
                runs.expect(f"{name}: its RTL", runs.emit(runs.put(name, text), "rtl"), rtl)
        if only in (None, "drawn"):
            drawn(runs, 100)
        if only in (None, "changes"):
            changes(runs, THREE, THREE_RTL)
        if only in (None, "exchanged"):
            exchanged(runs, SMALL[1:2])
        if only in (None, "lengths"):
            lengths(runs)
        if only in (None, "judged"):
            judged(runs, SMALL)
            if rows:
                vectors(runs, rows)
        for fault in runs.faults:
            print(fault)
        print(f"{runs.count} runs, {len(runs.faults)} wrong")
        return 1 if runs.faults else 0


# ---- rows

def quoted(text):
    return '"' + text.replace("\n", "\\n") + '"'


def row(words, answer):
    status, out, err = answer
    return f"here {words} => {status} {quoted(out)} {quoted(err)}"


def rows(folder):
    """The files of the rows, which lie in a folder `bundles` beside them, and the rows."""
    os.makedirs(folder, exist_ok=True)

    def put(name, data):
        with open(os.path.join(folder, name), "wb") as out:
            out.write(data)
        return f"bundles/{name}"

    for name, text, rtl in SMALL:
        made = Made(text, rtl)
        stem = name[:-2]
        put(name, text)
        put(f"{stem}.cfp", made.program())
        put(f"{stem}.cfb", made.bundle())
    seven, three = Made(SEVEN, SEVEN_RTL), Made(THREE, THREE_RTL)
    wrong = {what: (data, line) for what, data, line in bad_bundles(THREE, THREE_RTL)}
    verify = "verify bundles/three.c --program bundles/three.cfp --bundle "
    yield "# verify: the offers of a bundle come to the program; else the first of these: the forms, the text, the names, the offers, the program"
    yield row("verify bundles/seven.c --program bundles/seven.cfp --bundle bundles/seven.cfb", verified(seven))
    yield row(verify + "bundles/three.cfb", verified(three))
    for what, name in (("exchanged", "exchanged"), ("exchanged pass 3", "third"), ("another order", "order"), ("an order that begins elsewhere", "begins"), ("one function fewer", "fewer")):
        data, line = wrong[what]
        path = put(f"{name}.cfb", data)
        yield row(verify + path, (1, "", f"refused {line.replace('%', path)}\n"))
    yield row("verify bundles/three.c --program bundles/three.cfp --bundle bundles/seven.cfb", (1, "", "refused 404 OtherSource in bundles/seven.cfb\n"))
    yield row("verify bundles/seven.c --program bundles/three.cfp --bundle bundles/seven.cfb", (1, "", "refused 603 Names in bundles/three.cfp\n"))
    yield row("verify bundles/seven.c --program bundles/words.cfp --bundle bundles/seven.cfb", (1, "", "refused 604 OtherProgram in main\n"))
    yield row("verify bundles/seven.c --program bundles/seven.cfp --bundle bundles/seven.cfp", (1, "", "refused 102 BadTag in bundles/seven.cfp\n"))
    yield row("verify bundles/seven.c --program bundles/seven.c --bundle bundles/none", (2, "", "file bundles/none\n"))
    yield "# judge: one written offer, and of pass 1 whether it is the function's"
    path = put("one.pass1", three.offers[0][0])
    yield row(f"judge bundles/three.c --function one --offer {path}", (0, "accepted pass 1\n", ""))
    yield row(f"judge bundles/three.c --function two --offer {path}", (1, "", "refused 602 Unchained\n"))
    yield row(f"judge bundles/three.c --function tow --offer {path}", (1, "", "refused 603 Names in tow\n"))
    path = put("two.pass4", other_order(Made(THREE, THREE_RTL), 1).offers[1][3])
    yield row(f"judge bundles/three.c --function main --offer {path}", (0, "accepted pass 4\n", ""))
    yield row("judge bundles/three.c --function main --offer bundles/three.cfb", (1, "", "refused 102 BadTag in bundles/three.cfb\n"))
    yield "# emit: how many bytes each form has, and a text that is refused"
    text = SEVEN.decode().strip()
    sizes = {"cminor": len(b"CFP1\1") + 3 + 5 + len(bytes.fromhex("0100000105000000010a010000000007")), "rtl": len(SEVEN_RTL), "linear": len(seven.program()), "bundle": len(seven.bundle())}
    for form, size in sizes.items():
        yield f"failing emit f --of {form} < {text} => {size} 0"
    yield 'run emit f --of rtl < int main(void){return x;} => 1 "" "refused 220 Undeclared at 22\\n"'


def main():
    ask = argparse.ArgumentParser(description=__doc__, formatter_class=argparse.RawDescriptionHelpFormatter)
    ask.add_argument("--program", metavar="PATH")
    ask.add_argument("--only", choices=("examples", "drawn", "changes", "exchanged", "lengths", "judged"))
    ask.add_argument("--vectors", metavar="PATH", help="written offers with what is told of them, a line each, for `judged`")
    ask.add_argument("words", nargs="*", metavar="WORD", help="rows FOLDER, or make TEXT RTL PROGRAM BUNDLE")
    given = ask.parse_args()
    if given.program:
        sys.exit(all_runs(given.program, given.only, given.vectors))
    if len(given.words) == 5 and given.words[0] == "make":
        program, bundle = make(open(given.words[1], "rb").read(), open(given.words[2], "rb").read())
        open(given.words[3], "wb").write(program)
        open(given.words[4], "wb").write(bundle)
    elif len(given.words) == 2 and given.words[0] == "rows":
        print("\n".join(rows(given.words[1])))
    else:
        ask.error("give --program PATH, rows FOLDER, or make TEXT RTL PROGRAM BUNDLE")


if __name__ == "__main__":
    main()
