#!/usr/bin/env python3
"""Compares what the library answers with what the commands answer, on texts, programs, bundles and schedules that are good or were changed.

    tests/outside/libraries.py [--cases N] [--seed S]

tools/library has to have built the library, and ./cfarm the program. Each of N cases (500) takes an example, or one that lost or changed bytes, and
asks for status, output and the line on standard error of `check`, `interpret`, `exec`, `emit`, `show`, `verify` or `sim`: by ctypes, as
examples/library/cfarm.py calls the library, and of `verify` also by examples/library/verify.c, which is skipped by name where there is no C
compiler. Then come null pointers, lengths that no memory has, forms that there are not, and eight threads at once. The status is 1 where an
answer differs."""
import argparse
import ctypes
import os
import random
import shutil
import subprocess
import sys
import tempfile
import threading

ROOT = os.path.dirname(os.path.dirname(os.path.dirname(os.path.abspath(__file__))))
sys.path.insert(0, os.path.join(ROOT, "examples", "library"))
from cfarm import FORMS, Answer, Cfarm  # noqa: E402

PROGRAM = os.path.join(ROOT, "crates", "cfarm", "out", "cfarm")
OUT = os.path.join(ROOT, "crates", "cfarm_library", "out")
wrong, counts = [], {}


def expect(is_so, what):
    if not is_so:
        wrong.append(what)


def run(words, folder):
    done = subprocess.run(words, cwd=folder, stdin=subprocess.DEVNULL, stdout=subprocess.PIPE, stderr=subprocess.PIPE, check=False)
    return done.returncode, done.stdout, done.stderr


class Room:
    """A folder in which the commands find their files."""

    def __init__(self, folder):
        self.folder = folder

    def put(self, **files):
        for name, held in files.items():
            with open(os.path.join(self.folder, name), "wb") as file:
                file.write(held)

    def command(self, *words):
        return run([PROGRAM, *words], self.folder)


def sources():
    """The examples: texts, what they are emitted as, and schedules."""
    texts, folder = [], os.path.join(ROOT, "examples")
    for name in sorted(os.listdir(folder)):
        if name.endswith(".c"):
            with open(os.path.join(folder, name), "rb") as file:
                texts.append(file.read())
    schedules = []
    for path in ("examples/adoption.txt", "docs/drawings/restart.txt"):
        with open(os.path.join(ROOT, path), "rb") as file:
            schedules.append(file.read())
    return texts, schedules


def changed(held, draw):
    """The bytes, or in two of three cases some that lost or changed a few."""
    kind = draw.randrange(6)
    if kind < 2 or not held:
        return held
    if kind == 2:
        return held[: draw.randrange(len(held))]
    if kind == 3:
        at = draw.randrange(len(held))
        return held[:at] + held[at + draw.randrange(1, 9) :]
    other = bytearray(held)
    for _ in range(draw.randrange(1, 4)):
        other[draw.randrange(len(other))] = draw.randrange(256) if kind == 4 else draw.choice(b"0123456789(){};=+-* ")
    return bytes(other)


def compare(name, found, wanted, what):
    counts[name] = counts.get(name, 0) + 1
    expect(found == wanted, f"{name} of {what}: the library {found}, the command {wanted}")


def one_case(number, draw, library, room, texts, made, schedules, c_program):
    at = draw.randrange(len(texts))
    text = changed(texts[at], draw)
    name = draw.choice(["check", "interpret", "exec", "emit", "show", "verify", "verify", "sim"])
    if name == "check":
        room.put(text=text)
        compare(name, library.check(text), room.command("check", "text"), number)
    elif name == "interpret":
        depth = draw.choice([0, 1, 20, 100_000])
        room.put(text=text)
        compare(name, library.interpret(text, depth), room.command("interpret", "text", "--depth", str(depth)), number)
    elif name == "exec":
        program = changed(made[at]["linear"], draw)
        limit, expected = draw.choice([0, 100, 1_000_000]), draw.choice([None, 0, 7, -1])
        words = ["exec", "program", "--limit", str(limit)] + ([] if expected is None else [f"--expect={expected}"])
        room.put(program=program)
        compare(name, library.exec(program, limit, expected), room.command(*words), number)
    elif name == "emit":
        form, seed = draw.choice(FORMS), draw.choice([None, 0, draw.randrange(2**63)])
        words = ["emit", "text", "--of", form] + ([] if seed is None else ["--seed", str(seed)])
        room.put(text=text)
        compare(name, library.emit(text, form, seed), room.command(*words), number)
    elif name == "show":
        program = changed(made[at][draw.choice(FORMS)], draw)
        room.put(program=program)
        compare(name, library.show(program), room.command("show", "program"), number)
    elif name == "sim":
        schedule, drawing = changed(draw.choice(schedules), draw), draw.randrange(2)
        room.put(schedule=schedule)
        compare(name, library.sim(schedule, bool(drawing)), room.command("sim", "schedule", *["--svg"] * drawing), number)
    else:
        other = draw.randrange(len(texts)) if draw.randrange(5) == 0 else at
        kept = texts[at] if draw.randrange(3) else text
        program = made[other]["linear"] if draw.randrange(2) else changed(made[other]["linear"], draw)
        bundle = made[at]["bundle"] if draw.randrange(2) else changed(made[at]["bundle"], draw)
        room.put(text=kept, program=program, bundle=bundle)
        wanted = room.command("verify", "text", "--program", "program", "--bundle", "bundle")
        compare(name, library.verify(kept, program, bundle), wanted, number)
        if c_program:
            compare("verify.c", run([c_program, "text", "program", "bundle"], room.folder), wanted, number)


def compiled(folder):
    """The C example, if there is a C compiler."""
    compiler = shutil.which("cc") or shutil.which("gcc") or shutil.which("clang")
    if not compiler:
        print("skipped: examples/library/verify.c, for want of a C compiler")
        return None
    made = os.path.join(folder, "verify")
    words = [compiler, "-std=c99", "-Wall", "-Wextra", "-Werror", "-pedantic", f"-I{ROOT}/include", f"{ROOT}/examples/library/verify.c", f"{OUT}/libcfarm.a", "-o", made]
    status, _, told = run(words, folder)
    expect(status == 0, f"verify.c is not compiled: {told.decode()}")
    return made if status == 0 else None


def odd_calls(library, room):
    """Null pointers, lengths that no memory has, and forms that there are not."""
    room.put(empty=b"")
    words = {"check": [], "show": [], "interpret": [ctypes.c_uint32(100_000)], "exec": [ctypes.c_uint64(1_000_000), ctypes.c_uint32(0), ctypes.c_int32(0)],
             "simulate": [ctypes.c_uint32(0)], "emit": [ctypes.c_uint32(3), ctypes.c_uint32(0), ctypes.c_uint64(0)]}
    asked = {"simulate": ["sim", "empty"], "emit": ["emit", "empty", "--of", "linear"]}
    for name, more in words.items():
        found = library.call(name, None, ctypes.c_size_t(0), *more)
        compare("null", found, room.command(*asked.get(name, [name, "empty"])), name)
        for length in (2**63, 2**64 - 1):
            found = library.call(name, ctypes.c_char_p(b"x"), ctypes.c_size_t(length), *more)
            compare("long", found, (7, b"", b"memory\n"), name)
    nothing = (None, ctypes.c_size_t(0))
    room.put(program=b"", bundle=b"")
    compare("null", library.call("verify", *nothing * 3), room.command("verify", "empty", "--program", "program", "--bundle", "bundle"), "verify")
    compare("form", library.emit(b"", 5), (2, b"", b"form\n"), "form 5")
    compare("version", library.version(), room.command("--version"), "version")
    expect(ctypes.sizeof(Answer) == 24, "a cfarm_answer is not of three words")


def at_once(library, texts, made):
    """Eight threads that verify the examples at once."""
    def verify(at):
        text, forms = texts[at % len(texts)], made[at % len(texts)]
        for _ in range(4):
            found = library.verify(text, forms["linear"], forms["bundle"])
            expect(found[0] == 0 and found[1].startswith(b"verified "), f"beside other threads verify answers {found}")
    threads = [threading.Thread(target=verify, args=(at,)) for at in range(8)]
    for thread in threads:
        thread.start()
    for thread in threads:
        thread.join()


def main():
    words = argparse.ArgumentParser(description=__doc__, formatter_class=argparse.RawDescriptionHelpFormatter)
    words.add_argument("--cases", type=int, default=500)
    words.add_argument("--seed", type=int, default=1)
    asked = words.parse_args()
    if not os.path.exists(os.path.join(OUT, "libcfarm.so")):
        print("skipped: there is no crates/cfarm_library/out/libcfarm.so; tools/library builds it")
        return 0
    library = Cfarm(os.path.join(OUT, "libcfarm.so"))
    with tempfile.TemporaryDirectory() as folder:
        room, draw = Room(folder), random.Random(asked.seed)
        texts, schedules = sources()
        made = [{form: library.emit(text, form, 5)[1] for form in FORMS} for text in texts]
        c_program = compiled(folder)
        for number in range(asked.cases):
            one_case(number, draw, library, room, texts, made, schedules, c_program)
        odd_calls(library, room)
        at_once(library, texts, made)
    told = ", ".join(f"{count} of {name}" for name, count in sorted(counts.items()))
    print("\n".join(wrong[:20] + [f"compared {told}", f"{len(wrong)} wrong"]))
    return 1 if wrong else 0


if __name__ == "__main__":
    sys.exit(main())
