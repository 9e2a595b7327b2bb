#!/usr/bin/env python3
"""Runs the built program in terminals of 28, 80 and 200 columns (tmux) and compares what stands on the screen with what is to be shown.

    tests/outside/terminal.py                  all cases at each width
    tests/outside/terminal.py --columns 80     at this width
    tests/outside/terminal.py --case progress  only the cases with this in their names
    tests/outside/terminal.py --program PATH   this program

Shown are: the lines of a program that prints and then loops, while it loops; a build's progress, and nothing of it behind; excerpts for
faults at the first and the last byte, behind tabs, in a line of 10 MB and behind bytes that are no ASCII; hints at seventeen texts that a C
programmer may write first; what is said behind a bound, a folder that another build has, and journals of another build; and the line of
journals that were migrated. The rows of the screen are made here from the text that is to be shown (a row that is full goes on in the
next, a tab goes to the next multiple of eight). It prints a line for each case that is wrong, and counts. Its status is 1 where one was."""
import argparse
import fcntl
import os
import shlex
import shutil
import subprocess
import sys
import tempfile
import time

import aged

ROOT = os.path.dirname(os.path.dirname(os.path.dirname(os.path.realpath(__file__))))
ROWS = 50
MOST = 100
PRINTS = b"int putchar(int);\nint main(void){putchar('h');putchar('i');putchar('\\n');%s}\n"
LOOPS = PRINTS % b"int i = 0; while(1) {i = 1;} return 0;"
ENDS = b"int putchar(int);\nint main(void){putchar('h');putchar('i');return 3;}\n"
MAIN = b"int main(void){return 0;}\n"

CALL = "a call stands in no expression: give it a line of its own, `r = f(x);`"
FIRST = (
    ("a preprocessor's line", b"#include <stdio.h>\n" + MAIN, b"#", "`#`: there is no preprocessor: write the prototypes, `int putchar(int);`"),
    ("a string", b"int puts(int);\nint main(void){\n  puts(\"hi\");\n  return 0;\n}\n", b'"hi', "`\"`: there are no strings: print each character, `putchar('h');`"),
    ("a change in an expression", b"int main(void){\n  int x = 1;\n  return x++ + 1;\n}\n", b"++ +", "`++`: a change stands in no expression: give it a line of its own, `i++;`"),
    ("calls in an expression", b"int sq(int n){return n*n;}\nint main(void){\n  return sq(3)+sq(4);\n}\n", b"+sq", f"`+`: {CALL}"),
    ("two names in a declaration", b"int main(void){\n  int a, b;\n  return 0;\n}\n", b", b", "`,`: a declaration has one name: `int a; int b;`"),
    ("an array in a function", b"int main(void){\n  int a[4];\n  return 0;\n}\n", b"[4", "`[`: no array stands in a function: declare it outside of all functions"),
    ("a type of one's own", b"typedef int word;\n" + MAIN, b"typedef", "`typedef`: not in this language: there are no types of one's own"),
    ("a comma behind the last word", b"int a[4] = {4,};\n" + MAIN, b"};", "`}`: no comma stands behind the last initial word"),
    ("no semicolon", b"int f(int x) {\n  return x + x\n}\n" + MAIN, b"}\nint", "`}` after `x + x`: is `;` missing?"),
    ("a character that is not closed", b"int putchar(int);\nint main(void){\n  putchar('a);\n  return 0;\n}\n", b"'a)", "a character constant is one character in quotes, or `\\n`, `\\t`, `\\0`, `\\\\`, `\\'`, `\\\"`"),
    ("no semicolon on a line", b"int main(void) {\n  int x = 1 return x;\n}\n", b"return x", "`return` after `int x = 1`: is `;` missing?"),
    ("a parenthesis left open", b"int main(void) {\n  if (1 {\n    return 1;\n  }\n  return 0;\n}\n", b"{\n    r", "`{` after `if (1`: is `)` missing?"),
    ("a condition without parentheses", b"int main(void) {\n  int x = 1;\n  while x < 3 {\n    x++;\n  }\n  return 0;\n}\n", b"x < 3", "`x`: parentheses are missing: `if (x < 3)`, `while (x < 3)`"),
    ("an assignment that is meant to compare", b"int main(void) {\n  int x = 1;\n  if (x = 4) {\n    return 1;\n  }\n  return 0;\n}\n", b"= 4", "`=`: an assignment: to compare, write `==`"),
    ("a name that is misspelt", b"int main(void) {\n  int counter = 1;\n  return conter;\n}\n", b"conter", "`conter` is not declared: is `counter` meant?"),
    ("too many arguments", b"int f(int x) {\n  return x;\n}\nint main(void) {\n  int y;\n  y = f(1, 2);\n  return y;\n}\n", b"f(1", "too many arguments to `f`: 1 expected, 2 given"),
    ("a mark of the byte order", b"\xef\xbb\xbf" + MAIN, b"\xef", "a byte order mark stands in front: save the text without it"),
)
PLACES = (
    ("the first byte", b"@" + MAIN, b"@"),
    ("the last byte", MAIN + b"@", b"@"),
    ("the last byte of a line", MAIN + b"int a; @\n" + MAIN, b"@"),
    ("behind tabs", b"int main(void) {\n\tif (1) {\n\t\treturn\t@;\n\t}\n}\n", b"@"),
    ("in a line of 10 MB, first", b"@" + b" " * 10_000_000 + MAIN, b"@"),
    ("in a line of 10 MB, last", b" " * 10_000_000 + MAIN[:-1] + b"@", b"@"),
    ("in a line of 10 MB, amid", b"int main(void){" + b" " * 5_000_000 + b"return @0;" + b" " * 5_000_000 + b"}\n", b"@"),
    ("behind bytes that are no ASCII", b"/* gr\xc3\xbc\xc3\x9fe \xff\x01\x7f\xf0\x9f\x98\x80 */ int @;\n" + MAIN, b"@"),
    ("a text that ends", b"int main(void) {\n  return 0;\n", None),
)


def rows_of(text, columns):
    """The rows of an empty screen of so many columns on which a text is shown."""
    rows, at = [[]], 0
    for letter in text:
        if letter == "\n":
            rows.append([])
            at = 0
        elif letter == "\r":
            at = 0
        elif letter == "\t":
            at = min((at // 8 + 1) * 8, columns - 1)
        else:
            if at == columns:
                rows.append([])
                at = 0
            rows[-1] += [" "] * (at + 1 - len(rows[-1]))
            rows[-1][at] = letter
            at += 1
    found = ["".join(row).rstrip() for row in rows]
    while found and not found[-1]:
        found.pop()
    return found


def place_of(text, at):
    """The line and the column of an offset, in characters of UTF-8: bytes from 128 to 191 begin none."""
    front = text[text.rfind(b"\n", 0, at) + 1 : at]
    return text.count(b"\n", 0, at) + 1, 1 + sum(byte >> 6 != 2 for byte in front)


def excerpt(text, at):
    """The line of an offset, cut round it, and the mark below."""
    line, start = text.count(b"\n", 0, at) + 1, text.rfind(b"\n", 0, at) + 1
    column = at - start + 1
    row = text[start:].split(b"\n", 1)[0] if at <= len(text) else b""
    first = 0 if len(row) <= MOST else min(max(column - 1 - MOST // 2, 0), len(row) - MOST)
    shown = "".join(chr(it) if it == 9 or 32 <= it < 127 else "." for it in row[first : first + MOST])
    below = "".join("\t" if it == 9 else " " for it in row[first : column - 1])
    return f"{line} | {shown}\n{' ' * len(str(line))} | {below}^\n"


class Screen:
    """A terminal of so many columns."""

    def __init__(self, scratch, columns):
        self.scratch, self.columns, self.socket = scratch, columns, os.path.join(scratch, f"tmux{columns}")
        self.tmux("new-session", "-d", "-x", str(columns), "-y", str(ROWS), "sleep 1000000")
        self.tmux("set-option", "-g", "status", "off")
        self.tmux("resize-window", "-x", str(columns), "-y", str(ROWS))

    def tmux(self, *words):
        return subprocess.run(["tmux", "-S", self.socket, "-f", "/dev/null", *words], capture_output=True, check=True).stdout.decode()

    def start(self, line):
        """Runs a line of the shell on an empty screen."""
        self.status = os.path.join(self.scratch, "status")
        if os.path.exists(self.status):
            os.remove(self.status)
        script = os.path.join(self.scratch, "script")
        with open(script, "w", encoding="utf-8") as file:
            file.write(f"cd {shlex.quote(self.scratch)}\n{line}\necho $? >status.new; mv status.new status\nexec sleep 1000000\n")
        self.tmux("respawn-pane", "-k", f"sh {shlex.quote(script)}")

    def is_done(self):
        return os.path.exists(self.status)

    def rows(self):
        found = [row.rstrip() for row in self.tmux("capture-pane", "-p").split("\n")]
        while found and not found[-1]:
            found.pop()
        return found

    def until(self, is_so, seconds):
        """Whether this became so within so many seconds."""
        end = time.monotonic() + seconds
        while not is_so():
            if time.monotonic() > end:
                return False
            time.sleep(0.02)
        return True

    def settled(self):
        """The rows behind the end; it waits for what is not shown yet."""
        before = None
        while (now := self.rows()) != before:
            before = now
            time.sleep(0.05)
        return now

    def shown(self, line, seconds=600):
        """What stands on the screen behind a line of the shell."""
        self.start(line)
        return self.settled() if self.until(self.is_done, seconds) else ["it does not end"]

    def close(self):
        self.tmux("kill-server")


class Cases:
    """The program, where its files stand, the cases that are tried, and what was wrong."""

    def __init__(self, given, scratch):
        self.given, self.scratch, self.tried, self.wrong = given, scratch, 0, []
        self.program = os.path.abspath(given.program)
        self.named = shlex.quote(self.program)

    def file(self, name, data):
        with open(os.path.join(self.scratch, name), "wb") as file:
            file.write(data)
        return name

    def folder(self, like=None):
        made = tempfile.mkdtemp(prefix="d", dir=self.scratch)
        if like:
            shutil.copytree(os.path.join(self.scratch, like), made, dirs_exist_ok=True)
        return os.path.basename(made)

    def answer(self, *words):
        """What the program prints and tells where nothing is a terminal."""
        ran = subprocess.run([self.program, *words], capture_output=True, check=False, cwd=self.scratch)
        return ran.stdout.decode(), ran.stderr.decode()

    def wants(self, title):
        return self.given.case in title

    def expect(self, screen, title, found, wanted):
        """Compares rows; `wanted` may be a text, of which the last rows are seen."""
        wanted = rows_of(wanted, screen.columns)[1 - ROWS :] if isinstance(wanted, str) else wanted
        self.tried += 1
        if found != wanted:
            self.wrong.append(f"{title}, {screen.columns} columns: {found}, wanted {wanted}")
            print(self.wrong[-1], flush=True)

    def faults(self, screen):
        """Refused texts, explained."""
        for title, text, marked, said in [*FIRST, *((*it, None) for it in PLACES)]:
            title = f"fault, {title}"
            if not self.wants(title):
                continue
            name = self.file("t.c", text)
            _, line = self.answer("check", name)
            _, told = self.answer("check", name, "--format", "gcc")
            at = int(line.split()[-1])
            row, column = place_of(text, at)
            place = f"t.c:{row}:{column}: "
            wanted = at if marked is None else text.index(marked)
            self.expect(screen, title, [str(at), told[: len(place)]], [str(wanted), place])
            found = screen.shown(f"{self.named} check {name}")
            if said is None and marked is None:
                said = "the text ends: is `}` missing?"
            sentence = told.split(": error: ", 1)[1].rsplit(" [", 1)[0]
            if said:
                self.expect(screen, f"{title}, gcc", [sentence[-len(said) - 2 :]], [f": {said}"])
            self.expect(screen, title, found, f"{line}{place}{said or sentence}\n{excerpt(text, at)}")

    def loops(self, screen):
        """A program that prints and loops."""
        name, folder = self.file("loops.c", LOOPS), self.folder()
        self.answer("build", name, "--dir", folder)
        for title, words in (
            ("seen, interpret", f"interpret {name} --depth 4294967295"),
            ("seen, exec", f"exec {folder}/linked.cfp --limit 9223372036854775807"),
        ):
            if self.wants(title):
                screen.start(f"{self.named} {words}")
                screen.until(screen.rows, 120)
                self.expect(screen, title, screen.rows() + (["ended"] if screen.is_done() else []), "hi\n")
        name, folder = self.file("ends.c", ENDS), self.folder()
        self.answer("build", name, "--dir", folder)
        for title, words in (("line ended, interpret", f"interpret {name}"), ("line ended, exec", f"exec {folder}/linked.cfp")):
            if self.wants(title):
                self.expect(screen, title, screen.shown(f"{self.named} {words}"), "hi\nended 3\n")
                self.expect(screen, title, screen.shown(f"{self.named} {words} 2>/dev/null"), "hi")
                self.expect(screen, title, screen.shown(f"{self.named} {words} >/dev/null"), "ended 3\n")
        deeper = "running\nstopped at 9 turns and calls in one another; --depth N allows more, --depth none all\n"
        longer = "running\nstopped after 99 instructions; --limit N allows more, --limit none all\n"
        name, folder = self.file("bound.c", LOOPS.replace(b"putchar('\\n');", b"")), self.folder()
        self.answer("build", name, "--dir", folder)
        if self.wants("bound, interpret"):
            self.expect(screen, "bound, interpret", screen.shown(f"{self.named} interpret {name} --depth 9"), "hi\n" + deeper)
        if self.wants("bound, exec"):
            self.expect(screen, "bound, exec", screen.shown(f"{self.named} exec {folder}/linked.cfp --limit 99"), "hi\n" + longer)

    def progress(self, screen):
        """A build's progress while it goes on, and behind it."""
        if not self.wants("progress"):
            return
        name = self.file("many.c", "".join(f"int f{n}(int a){{return a*{n}+{n};}}\n" for n in range(60)).encode() + MAIN)
        for streams in ("", " >/dev/null", " | cat"):
            folder, seen = self.folder(), []
            screen.start(f"{self.named} build {name} --nodes 7 --dir {folder}{streams}")
            while not screen.is_done():
                seen.append(screen.rows())
                time.sleep(0.01)
            report, _ = self.answer("build", name, "--nodes", "7", "--dir", folder)
            self.expect(screen, f"progress, behind a build{streams}", screen.settled(), "" if "null" in streams else report)
            lines = [rows for rows in seen if rows and rows[0].startswith("build: ")]
            told = f"{len(lines)} times seen, each in one row"
            is_one = all(len(rows) == 1 for rows in lines) and len(lines) > 0
            self.expect(screen, f"progress, while a build goes on{streams}", [told] if is_one else lines, [told])
        folder = self.folder()
        found = screen.shown(f"{self.named} build {name} --nodes 7 --turns 0 --dir {folder}")
        turns = "not every room was agreed on: `--turns N` sets how many turns each node takes, and the same build goes on from its journals"
        self.expect(screen, "progress, behind an undecided build", found, f"undecided\n{turns}\n")

    def folders(self, screen):
        """Folders that are another's, that another build has, and with journals of the first version."""
        name, built = self.file("small.c", ENDS), self.folder()
        report, _ = self.answer("build", name, "--dir", built)
        build = f"{self.named} build {name}"
        if self.wants("lock"):
            with open(os.path.join(self.scratch, built, "cfarm.lock"), "r+", encoding="utf-8") as lock:
                fcntl.flock(lock, fcntl.LOCK_EX)
                found = screen.shown(f"{build} --dir {built}")
            hint = "another build is running in that folder, or it is missing or cannot be written"
            self.expect(screen, "lock, another has it", found, f"file {built}/cfarm.lock\nanother process holds it\n{hint}\n")
            self.expect(screen, "lock, given back", screen.shown(f"{build} --dir {built}"), report)
        again = "give the folder of this build or an empty one (--dir); a `linked.cfp` that is there is of the old build\n"
        for title, words, told in (
            ("text", f"build {self.file('edited.c', ENDS + b' ')} --dir {built}", "text"),
            ("number of nodes", f"build {name} --nodes 5 --dir {built}", "number of nodes (--nodes)"),
            ("sizes", f"build {name} --promise 3 --accept 1 --dir {built}", "quorums of other sizes (--promise, --accept)"),
        ):
            if self.wants(f"journals of another {title}"):
                line = "that journal is of " + (told if title == "sizes" else f"another {told}")
                why = "the journals of that folder are of another text, nodes or quorums: this build needs a folder of its own (--dir)"
                wanted = f"journal 404 OtherSource node 0\n{why}\n{line}:\n{again}"
                self.expect(screen, f"journals of another {title}", screen.shown(f"{self.named} {words}"), wanted)
        for count, which in ((3, None), (1, (1,))):
            if self.wants("migrated"):
                folder = self.folder(built)
                aged.age(os.path.join(self.scratch, folder), which)
                found = screen.shown(f"{build} --dir {folder}")
                self.expect(screen, f"migrated, {count} journals", found, f"migrated {count} of 3 journals\n{report}")
                self.expect(screen, "migrated before", screen.shown(f"{build} --dir {folder}"), report)


def main():
    words = argparse.ArgumentParser(description=__doc__, formatter_class=argparse.RawDescriptionHelpFormatter)
    words.add_argument("--columns", type=int, nargs="+", default=[28, 80, 200])
    words.add_argument("--case", default="")
    words.add_argument("--program", default=os.path.join(ROOT, "crates", "cfarm", "out", "cfarm"))
    given = words.parse_args()
    if not os.path.exists(given.program):
        sys.exit("build the program first: ./cfarm --help")
    if not shutil.which("tmux"):
        sys.exit("tmux is not on the path")
    with tempfile.TemporaryDirectory(prefix="terminal") as scratch:
        cases = Cases(given, scratch)
        for columns in given.columns:
            screen = Screen(scratch, columns)
            try:
                for group in (cases.faults, cases.loops, cases.progress, cases.folders):
                    group(screen)
            finally:
                screen.close()
    print(f"{cases.tried} screens, {len(cases.wrong) or 'nothing'} wrong")
    return 1 if cases.wrong else 0


if __name__ == "__main__":
    sys.exit(main())
