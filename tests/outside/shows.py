#!/usr/bin/env python3
"""The text of a program or of a written offer, by docs/FORMATS.md alone, and whether `cfarm show` prints the same.

    tests/outside/shows.py FILE                          prints the text of a file, or the number of its refusal
    tests/outside/shows.py --program CFARM               compares `CFARM show` with it over the examples' programs and offers, and a program of 65,535
                                                         nodes of each language (with the time that took); and programs that differ in one byte
    tests/outside/shows.py --program CFARM --vectors D   also over each form in D/forms.txt, D/run.txt, D/why.txt and D/why-marked.txt

Programs that differ differ in the text: of each program that is read, other bytes are tried at each place, and what is read of them has another text."""
import argparse
import os
import random
import resource
import subprocess
import sys
import tempfile
import time

ROOT = os.path.dirname(os.path.dirname(os.path.dirname(os.path.realpath(__file__))))
OPERATORS = " NegS NegU Not IsZero AddS AddU SubS SubU MulS MulU DivS DivU ModS ModU And Or Xor ShlS ShlU ShrS ShrU Eq Ne LtS LtU LeS LeU".split(" ")
CONDITIONS = "Nz Eq Ne LtS LtU LeS LeU".split()
TITLES = {1: "cminor", 2: "rtl", 3: "ltl", 4: "linear"}
KEYWORDS = set("auto break case char const continue default do double else enum extern float for goto if inline int long register restrict return short signed sizeof static "
               "struct switch typedef union unsigned void volatile while _Bool _Complex _Imaginary".split())
SHORT, BAD_TAG, NOT_CANONICAL, TOO_LARGE = 101, 102, 103, 104


class Refused(Exception):
    pass


class Reader:
    def __init__(self, data):
        self.data, self.at = data, 0

    def take(self, count):
        if self.at + count > len(self.data):
            raise Refused(SHORT)
        part = self.data[self.at:self.at + count]
        self.at += count
        return part

    def number(self, width):
        return int.from_bytes(self.take(width), "big")

    def below(self, width, limit):
        number = self.number(width)
        if number >= limit:
            raise Refused(NOT_CANONICAL)
        return number

    def count(self, width, limit):
        number = self.number(width)
        if number > limit:
            raise Refused(TOO_LARGE)
        return number

    def optional(self, part):
        return part() if self.below(1, 2) else None


def distinct(items):
    if len(set(items)) < len(items):
        raise Refused(NOT_CANONICAL)


class Cminor:
    def __init__(self, reader):
        self.r = reader
        if reader.number(1) != 1:
            raise Refused(BAD_TAG)
        count = reader.count(1, 16)
        self.variables = reader.count(2, 512)
        if count > self.variables:
            raise Refused(NOT_CANONICAL)
        self.parameters = [f"v{n}" for n in range(count)]
        self.lines, self.size = [], f"variables {self.variables}"
        self.statement(1000)

    def variable(self):
        return f"v{self.r.below(2, self.variables)}"

    def expression(self, height):
        if height == 0:
            raise Refused(TOO_LARGE)
        code, inner = self.r.number(1), height - 1
        if code == 0:
            return f"{self.r.number(4)}"
        if code == 1:
            return self.variable()
        if code == 2:
            place = f"g{self.r.below(2, 1024)}"
            return f"( load {place} {self.expression(inner)} )"
        if code == 3:
            operator = self.r.number(1)
            if not 1 <= operator <= 27:
                raise Refused(NOT_CANONICAL)
            parts = [self.expression(inner) for _ in range(1 if operator < 5 else 2)]
            return f"( {OPERATORS[operator]} {' '.join(parts)} )"
        if code == 4:
            return f"( choose {' '.join(self.expression(inner) for _ in range(3))} )"
        raise Refused(NOT_CANONICAL)

    def say(self, *words):
        self.lines.append("  " + " ".join(word for word in words if word))

    def target(self):
        name = self.r.optional(self.variable)
        return "" if name is None else f"{name} ="

    def statement(self, height):
        if height == 0:
            raise Refused(TOO_LARGE)
        code, inner = self.r.number(1), height - 1
        if code == 0:
            self.say("skip")
        elif code == 1:
            name = self.variable()
            self.say(name, "=", self.expression(inner))
        elif code == 2:
            place = f"g{self.r.below(2, 1024)}"
            index = self.expression(inner)
            self.say("store", place, index, self.expression(inner))
        elif code == 3:
            callee = f"f{self.r.below(1, 64)}"
            target = self.target()
            self.say(target, "call", callee, *[self.expression(inner) for _ in range(self.r.number(1))])
        elif code == 4:
            target = self.target()
            self.say(target, "put", self.expression(inner))
        elif code == 5:
            self.say("sequence")
            for _ in range(self.r.number(4)):
                self.statement(inner)
            self.say("end")
        elif code == 6:
            self.say("if", self.expression(inner))
            self.statement(inner)
            self.statement(inner)
        elif code in (7, 8):
            self.say("loop" if code == 7 else "block")
            self.statement(inner)
        elif code == 9:
            self.say("exit", str(self.r.number(2)))
        elif code == 10:
            self.say("return", self.r.optional(lambda: self.expression(inner)))
        else:
            raise Refused(NOT_CANONICAL)


class Frame:
    """What RTL, LTL and Linear share."""

    def locations_first(self, name):
        r = self.r
        listed = [self.place_before() for _ in range(r.count(1, 16))]
        distinct(listed)
        self.count_of_places = r.count(2, 2048 if name == "slots" else 4096)
        for kind, number in listed:
            if kind == ("s" if name == "slots" else "r") and number >= self.count_of_places:
                raise Refused(NOT_CANONICAL)
        self.parameters = [f"{kind}{number}" for kind, number in listed]
        self.size = f"{name} {self.count_of_places}"

    def graph(self):
        entry = self.r.number(2)
        self.nodes = self.r.number(2)
        if entry >= self.nodes:
            raise Refused(NOT_CANONICAL)
        self.size += f" entry {entry}"

    def operate(self, target, operand):
        operator = self.r.number(1)
        if not 1 <= operator <= 27:
            raise Refused(NOT_CANONICAL)
        names = [target()] + [operand() for _ in range(1 if operator < 5 else 2)]
        return f"{names[0]} = {OPERATORS[operator]} {' '.join(names[1:])}"

    def test(self, operand):
        condition = self.r.below(1, 7)
        return f"if {CONDITIONS[condition]} {' '.join(operand() for _ in range(1 if condition == 0 else 2))}"

    def place_of_cell(self):
        return f"g{self.r.below(2, 1024)}"

    def called(self, place):
        callee = f"f{self.r.below(1, 64)}"
        arguments = [place() for _ in range(self.r.number(1))]
        target = self.r.optional(place)
        return " ".join(([f"{target} ="] if target else []) + ["call", callee] + arguments)

    def printed(self, register):
        source = register()
        target = self.r.optional(register)
        return (f"{target} = " if target else "") + f"put {source}"

    def returned(self, register):
        value = self.r.optional(register)
        return "return" + (f" {value}" if value else "")

    def stored(self, register):
        place, index = self.place_of_cell(), register()
        return f"store {place} {index} {register()}"

    def loaded(self, register):
        target, place = register(), self.place_of_cell()
        return f"{target} = load {place} {register()}"

    def node(self):
        return str(self.r.below(2, self.nodes))


class Rtl(Frame):
    def __init__(self, reader):
        self.r = reader
        if reader.number(1) != 2:
            raise Refused(BAD_TAG)
        self.locations_first("registers")
        self.graph()
        self.lines = [f"  {n} {self.instruction()}" for n in range(self.nodes)]

    def place_before(self):
        return ("r", self.r.number(2))

    def register(self):
        return f"r{self.r.below(2, self.count_of_places)}"

    def instruction(self):
        code, register = self.r.number(1), self.register
        if code == 0:
            done = "nothing"
        elif code == 1:
            target = register()
            done = f"{target} = constant {self.r.number(4)}"
        elif code == 2:
            target = register()
            done = f"{target} = move {register()}"
        elif code == 3:
            done = self.operate(register, register)
        elif code == 4:
            done = self.loaded(register)
        elif code == 5:
            done = self.stored(register)
        elif code == 6:
            done = self.called(register)
        elif code == 7:
            done = self.printed(register)
        elif code == 8:
            done = self.test(register)
            taken = self.node()
            return f"{done} -> {taken} {self.node()}"
        elif code == 9:
            return self.returned(register)
        else:
            raise Refused(NOT_CANONICAL)
        return f"{done} -> {self.node()}"


class Lower(Frame):
    def place_before(self):
        if self.r.below(1, 2):
            return ("s", self.r.number(2))
        return ("r", self.r.below(1, 8))

    def register(self):
        return f"r{self.r.below(1, 8)}"

    def location(self):
        if self.r.below(1, 2):
            return f"s{self.r.below(2, self.count_of_places)}"
        return self.register()

    def move(self, word):
        target = self.location()
        source = self.location()
        if target[0] == source[0] == "s":
            raise Refused(NOT_CANONICAL)
        return f"{target} = {word}{source}"

    def plain(self, code):
        if code == 1:
            target = self.register()
            return f"{target} = constant {self.r.number(4)}"
        if code == 3:
            return self.operate(self.register, self.register)
        if code == 4:
            return self.loaded(self.register)
        if code == 5:
            return self.stored(self.register)
        if code == 6:
            return self.called(self.location)
        if code == 7:
            return self.printed(self.register)
        raise Refused(NOT_CANONICAL)


class Ltl(Lower):
    def __init__(self, reader):
        self.r = reader
        if reader.number(1) != 3:
            raise Refused(BAD_TAG)
        self.locations_first("slots")
        self.graph()
        self.lines = [f"  {n} {self.block()}" for n in range(self.nodes)]

    def moves(self):
        moves = [self.move("") for _ in range(self.r.number(1))]
        return ["[", *moves, "]"] if moves else []

    def block(self):
        before = self.moves()
        code = self.r.number(1)
        if code == 8:
            done = self.test(self.register)
            taken = self.node()
            return " ".join([*before, f"{done} -> {taken} {self.node()}"])
        if code == 9:
            return " ".join([*before, self.returned(self.register)])
        done = self.nothing() if code == 0 else self.plain(code)
        successor = self.node()
        return " ".join([*before, done, *self.moves(), f"-> {successor}"])

    def nothing(self):
        return "nothing"


class Linear(Lower):
    def __init__(self, reader):
        self.r = reader
        if reader.number(1) != 4:
            raise Refused(BAD_TAG)
        self.locations_first("slots")
        self.labels = []
        self.lines = [f"  {self.instruction()}" for _ in range(reader.number(4))]

    def instruction(self):
        code = self.r.number(1)
        if code == 2:
            return self.move("move ")
        if code == 8:
            done = self.test(self.register)
            return f"{done} goto {self.r.number(2)}"
        if code == 9:
            return self.returned(self.register)
        if code == 10:
            label = self.r.number(2)
            if label in self.labels:
                raise Refused(NOT_CANONICAL)
            self.labels.append(label)
            return f"label {label}"
        if code == 11:
            return f"goto {self.r.number(2)}"
        return self.plain(code)


LANGUAGES = {1: Cminor, 2: Rtl, 3: Ltl, 4: Linear}


def function_lines(name, function):
    return [f"function {name}({', '.join(function.parameters)}) {function.size}", *function.lines]


def name_of(reader, names):
    name = reader.take(reader.number(1)).decode("latin-1")
    is_name = name and all(c.isascii() and (c.isalnum() or c == "_") for c in name) and not name[0].isdigit() and name not in KEYWORDS
    if not is_name or name in names:
        raise Refused(NOT_CANONICAL)
    names.append(name)
    return name


def program_text(data):
    reader = Reader(data)
    if reader.take(4) != b"CFP1":
        raise Refused(BAD_TAG)
    tag = reader.number(1)
    if tag not in LANGUAGES:
        raise Refused(BAD_TAG)
    lines, cells = [TITLES[tag]], 0
    for n in range(reader.count(2, 1024)):
        here = reader.number(4)
        cells += here
        if here == 0:
            raise Refused(NOT_CANONICAL)
        if cells > 65536:
            raise Refused(TOO_LARGE)
        listed = reader.number(4)
        if listed > here:
            raise Refused(NOT_CANONICAL)
        words = [reader.number(4) for _ in range(listed)]
        if words and words[-1] == 0:
            raise Refused(NOT_CANONICAL)
        lines.append(f"global g{n}[{here}]" + (" = " + " ".join(map(str, words)) if words else ""))
    names = []
    for _ in range(reader.count(1, 64)):
        name = name_of(reader, names)
        lines += function_lines(name, LANGUAGES[tag](reader))
    if "main" not in names or reader.at < len(data):
        raise Refused(NOT_CANONICAL)
    return "".join(f"{line}\n" for line in lines)


def right_side(reader, source):
    code = reader.number(1)
    if code == 0:
        operator = reader.number(1)
        if not 1 <= operator <= 27:
            raise Refused(NOT_CANONICAL)
        return f"{OPERATORS[operator]} {' '.join(source() for _ in range(1 if operator < 5 else 2))}"
    if code == 1:
        place = f"g{reader.below(2, 1024)}"
        return f"load {place} {source()}"
    if code == 2:
        return f"move {source()}"
    raise Refused(NOT_CANONICAL)


def rows_lines(number, reader, source, target):
    lines = []
    for _ in range(reader.number(2)):
        lines.append(f"row {reader.below(2, source.nodes)}")
        for _ in range(reader.number(2)):
            register = source.register_of(reader)
            if number == 17:
                lines.append(f"  {register} = constant {reader.number(4)}")
            elif number == 18:
                lines.append(f"  {register} = {right_side(reader, lambda: source.register_of(reader))}")
            else:
                lines.append(f"  {register} = {target.location()}")
    return lines


def offer_text(data):
    reader = Reader(data)
    number = reader.number(1)
    if number not in (17, 18, 19, 4):
        raise Refused(BAD_TAG)
    kind = (Ltl, Linear) if number == 4 else (Rtl, Ltl if number == 19 else Rtl)
    source = kind[0](reader)
    target = kind[1](reader)
    lines = [f"offer pass {number - 16 if number > 4 else 4}", *function_lines("input", source), *function_lines("output", target)]
    if number == 4:
        lines.append(" ".join(["order", *[str(reader.below(2, source.nodes)) for _ in range(reader.number(2))]]))
    else:
        lines += rows_lines(number, reader, source, target)
    if reader.at < len(data):
        raise Refused(NOT_CANONICAL)
    return "".join(f"{line}\n" for line in lines)


Rtl.register_of = lambda self, reader: f"r{reader.below(2, self.count_of_places)}"


def text_of(data):
    """The text, or the number of the refusal."""
    try:
        return program_text(data) if data[:1] == b"C" else offer_text(data)
    except Refused as refused:
        return refused.args[0]


NAMES = {SHORT: "Short", BAD_TAG: "BadTag", NOT_CANONICAL: "NotCanonical", TOO_LARGE: "TooLarge"}


def shown(program, data, folder):
    path = os.path.join(folder, "shown")
    with open(path, "wb") as file:
        file.write(data)
    ran = subprocess.run([program, "show", path], stdout=subprocess.PIPE, stderr=subprocess.PIPE, check=False)
    return ran.returncode, ran.stdout.decode(), ran.stderr.decode()


def wanted(text):
    return (0, text, "") if isinstance(text, str) else (1, "", f"refused {text} {NAMES[text]}\n")


def program_of(tag, function, globals_=b"\0\0"):
    return b"CFP1" + bytes([tag]) + globals_ + b"\x01\x04main" + function


def u16(number):
    return number.to_bytes(2, "big")


def largest(tag):
    """A program of 65,535 nodes, each an addition, and a return."""
    count = 65535
    if tag == 2:
        nodes = b"".join(b"\x03\x05" + u16(n % 4096) + u16(7) + u16(4095) + u16(n + 1) for n in range(count - 1)) + b"\x09\x00"
        return program_of(2, b"\x02\x00" + u16(4096) + u16(0) + u16(count) + nodes)
    if tag == 3:
        blocks = b"".join(b"\x01\x01" + u16(n % 2048) + b"\x00\x01\x03\x05" + bytes([n % 8, 1, 2]) + u16(n + 1) + b"\x00" for n in range(count - 1)) + b"\x00\x09\x00"
        return program_of(3, b"\x03\x00" + u16(2048) + u16(0) + u16(count) + blocks)
    if tag == 4:
        code = b"".join(b"\x0a" + u16(n) + b"\x03\x05" + bytes([n % 8, 1, 2]) for n in range(count // 2)) + b"\x09\x00"
        return program_of(4, b"\x04\x00" + u16(2048) + (2 * (count // 2) + 1).to_bytes(4, "big") + code)
    statements = b"".join(b"\x01" + u16(n % 512) + b"\x03\x05\x01\x00\x01\x00" + n.to_bytes(4, "big") for n in range(count - 1))
    return program_of(1, b"\x01\x00" + u16(512) + b"\x05" + (count - 1).to_bytes(4, "big") + statements)


def vector_files(folder):
    """The forms of functions under the name main, programs and offers."""
    for line in open(f"{folder}/forms.txt", encoding="utf-8"):
        tag, data = line.split()[:2]
        if int(tag) in LANGUAGES:
            yield program_of(int(tag), bytes.fromhex(data if data != "-" else ""))
    for line in open(f"{folder}/run.txt", encoding="utf-8"):
        yield bytes.fromhex(line.split()[1])
    for name in ("why.txt", "why-marked.txt"):
        for line in open(f"{folder}/{name}", encoding="utf-8"):
            yield bytes.fromhex(line.split()[1])


def example_files(program, folder):
    """The linked programs of the examples, and what `emit` gives of each language where the program has that command."""
    for name in sorted(os.listdir(f"{ROOT}/examples")):
        if not name.endswith(".c"):
            continue
        path = f"{ROOT}/examples/{name}"
        where = os.path.join(folder, name)
        os.makedirs(where)
        subprocess.run([program, "build", path, "--dir", where], stdout=subprocess.DEVNULL, stderr=subprocess.DEVNULL, check=False)
        if os.path.exists(f"{where}/linked.cfp"):
            yield open(f"{where}/linked.cfp", "rb").read()
        for language in TITLES.values():
            for seed in ((), ("--seed", "1"), ("--seed", "2"), ("--seed", "3")):
                made = subprocess.run([program, "emit", path, "--of", language, *seed], stdout=subprocess.PIPE, stderr=subprocess.DEVNULL, check=False)
                if made.returncode == 0:
                    yield made.stdout


def all_differ(files, tries, draw):
    """Whether files that are read and differ in one byte differ in the text."""
    count, texts = 0, {}
    for data in files:
        text = text_of(data)
        if not isinstance(text, str):
            continue
        texts.setdefault(text, data)
        if texts[text] != data:
            return f"two files of one text: {data.hex()} {texts[text].hex()}"
        for _ in range(min(tries, len(data))):
            at, byte = draw.randrange(len(data)), draw.randrange(1, 256)
            other = data[:at] + bytes([data[at] ^ byte]) + data[at + 1:]
            text_of_other = text_of(other)
            if isinstance(text_of_other, str):
                count += 1
                if text_of_other == text:
                    return f"two files of one text: {data.hex()} {other.hex()}"
    return f"{count} files that differ from another in one byte have another text"


def compared(program, files, folder):
    same, refused = 0, 0
    for data in files:
        text = text_of(data)
        got = shown(program, data, folder)
        if got != wanted(text):
            # of two faults either may be told
            if not isinstance(text, str) and got[0] == 1 and not got[1] and got[2].startswith("refused 10"):
                refused += 1
                continue
            print(f"other: {data.hex()[:200]}\n  wanted {str(wanted(text))[:300]}\n  got    {str(got)[:300]}")
            sys.exit(1)
        same += 1
    return f"{same} files as wanted" + (f", {refused} more refused for another fault" if refused else "")


def main():
    sys.setrecursionlimit(10000)
    words = argparse.ArgumentParser()
    words.add_argument("file", nargs="?")
    words.add_argument("--program")
    words.add_argument("--vectors")
    words.add_argument("--farm", help="a program that builds the examples, where it is another")
    asked = words.parse_args()
    if asked.file:
        text = text_of(open(asked.file, "rb").read())
        sys.stdout.write(text if isinstance(text, str) else f"refused {text}\n")
        return
    draw = random.Random(7)
    vectors = list(vector_files(asked.vectors)) if asked.vectors else []
    if vectors:
        print("vectors:", all_differ(vectors, 40, draw))
    if not asked.program:
        return
    with tempfile.TemporaryDirectory() as folder:
        if vectors:
            print("vectors:", compared(asked.program, vectors, folder))
        examples = list(example_files(asked.farm or asked.program, folder))
        print("examples:", compared(asked.program, examples, folder))
        print("examples:", all_differ(examples, 40, draw))
        for tag, title in TITLES.items():
            data = largest(tag)
            text = text_of(data)
            before, used = time.time(), resource.getrusage(resource.RUSAGE_CHILDREN)
            got = shown(asked.program, data, folder)
            spent, after = time.time() - before, resource.getrusage(resource.RUSAGE_CHILDREN)
            processor = after.ru_utime + after.ru_stime - used.ru_utime - used.ru_stime
            if got != wanted(text):
                print(f"{title}: other than wanted: {str(got)[:200]}")
                sys.exit(1)
            print(f"{title} of 65,535 nodes: {len(text)} bytes of text, {spent:.2f} s ({processor:.2f} s of a processor)")


if __name__ == "__main__":
    main()
