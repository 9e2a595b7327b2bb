#!/usr/bin/env python3
"""Runs the built program under faults, from outside, and tells how it answers.

    tests/outside/hostile.py                  all parts, the whole sweep
    tests/outside/hostile.py memory files     these parts
    tests/outside/hostile.py --quick          a sample of each part
    tests/outside/hostile.py --program PATH   this program
    tests/outside/hostile.py --jobs 2         so many runs at once (4)
    tests/outside/hostile.py --most 500       at most so many faults in a row of the table, spread evenly (all)
    tests/outside/hostile.py calls --row 'build, fresh' --at 57 --keep
                                              one fault of one row; what is left stays in the folder that is told

    memory    the nth allocation is refused, or thread not made, once and from then on, in each command
    threads   the nth thread is not made, once and from then on, in each command
    calls     the nth call of the system fails, once and from then on, or is interrupted, or reads or writes less than it was asked to
    kills     a build is killed at its nth call of the system, and builds are killed at random moments (tests/outside/kills.py); in folders with journals
              of the first version it is killed while it migrates them, too
    journals  each journal of a small build is cut at each length and changed at each byte, one at a time: those that the build left, those of the
              first version with the same records, and those that these were migrated to
    files     what else may stand in the way: files that are none, endless, huge, forbidden, full devices, closed streams
    terminals what a build shows on a terminal, of journals that it migrates
    pairs     two builds are started at once in one folder, fresh, after a kill and built, with journals of the first version too: one at a time
              has it
    examples  each example is built with 2 to 7 nodes, with equal and unequal sizes of quorums, and two seeds, and run

An answer is right where it is the one without a fault, or a status and a line of the program's table; want of memory is answered by `memory`,
7, alone. Never is it a signal, nor an output that is not a beginning of the right one. Behind each fault of a build linked.cfp is whole or
is not there, and a build without faults ends with 0 and leaves what stood there. A journal of the first version is as it was, or spent behind the
very one that it is to be migrated to (tests/outside/aged.py), and none is made. It prints a table: what was tried, how often, what was
answered, and how long the slowest trial took; then what was wrong, which must be nothing. Its status is 1 where something was."""
import argparse
import collections
import concurrent.futures
import hashlib
import json
import os
import pty
import random
import re
import shutil
import signal
import subprocess
import sys
import tempfile
import time

import aged
import kills
import shim

ROOT = os.path.dirname(os.path.dirname(os.path.dirname(os.path.realpath(__file__))))
TEXT = """int putchar(int);
int f(int n){int r; putchar('0'+n); if(n<2)return 1; r=f(n-1); putchar('a'+n); return n*r;}
int main(void){int x=f(5); return x;}
"""
SMALL = "int putchar(int); int main(void){putchar('7'); return 7;}\n"
MEGA = 1 << 20
LIMITED = 3000 * MEGA

MEASURED = r"""
#define _GNU_SOURCE
#include <signal.h>
#include <stdio.h>
#include <stdlib.h>
#include <sys/prctl.h>
#include <sys/resource.h>
#include <sys/wait.h>
#include <time.h>
#include <unistd.h>
/* measured FILE BYTES PROGRAM WORD..: runs the program with so many bytes of addresses (0: as many as it wants), and writes its status, its
   milliseconds and its peak kilobytes to the file. */
int main(int count, char **words) {
  struct timespec from, to; struct rusage used; int status;
  struct rlimit most = {strtoul(words[2], 0, 10), strtoul(words[2], 0, 10)};
  clock_gettime(CLOCK_MONOTONIC, &from);
  pid_t child = fork();
  if (child == 0) {
    prctl(PR_SET_PDEATHSIG, SIGKILL);
    if (most.rlim_cur) setrlimit(RLIMIT_AS, &most);
    execvp(words[3], words + 3);
    _exit(127);
  }
  if (child < 0 || wait4(child, &status, 0, &used) < 0) return 1;
  clock_gettime(CLOCK_MONOTONIC, &to);
  FILE *file = fopen(words[1], "w");
  if (!file) return 1;
  fprintf(file, "%d %ld %ld\n", WIFSIGNALED(status) ? -WTERMSIG(status) : WEXITSTATUS(status),
    (to.tv_sec - from.tv_sec) * 1000 + (to.tv_nsec - from.tv_nsec) / 1000000, used.ru_maxrss);
  return fclose(file) != 0;
}
"""

# The parts whose rows are of one way of failing each.
WAYED = ("memory", "threads", "calls")

# The table of the program: the name under which an answer is counted, its status, and its line.
TABLE = (
    ("done", 0, rb"(ended -?\d+\n)?"),
    ("refused", 1, rb"refused \d+ \w+( at \d+| in [^\n]+)?\n"),
    ("file", 2, rb"file [^\n]*\n"),
    ("schedule", 2, rb"schedule \d+\n"),
    ("quorums", 2, rb"quorums \d+ \d+ \d+\n"),
    ("words", 2, rb"error: .*"),
    ("undecided", 3, rb"undecided\n"),
    ("journal", 4, rb"journal \d+ \w+ (node|room) \d+\n"),
    ("link", 4, rb"link \d+ \w+( in \w+)?\n"),
    ("write 701", 4, rb"write 701\n"),
    ("no line", 4, rb"[^\n]*"),
    ("wrong", 5, rb"wrong\n"),
    ("running", 6, rb"running\n"),
    ("memory", 7, rb"memory\n"),
)

Answer = collections.namedtuple("Answer", "status out err")
ENDLESS = Answer(None, b"", b"does not end")


def name_of(answer):
    """Under which name of the table an answer stands, if it does."""
    for name, status, line in TABLE:
        if answer.status == status and re.fullmatch(line, answer.err, re.DOTALL):
            return name
    return None


def shown(answer):
    return f"status {answer.status}, {answer.err[:80]!r}, output {answer.out[:60]!r}"


def content(path):
    """The bytes of a file, if it is there."""
    return kills.content(path) if not os.path.isdir(path) else None


def write(path, data):
    with open(path, "wb") as file:
        file.write(data)


def olds(folder):
    """The journals of the first version of a folder."""
    found = {node: content(aged.old_in(folder, node)) for node in range(7) if os.path.isfile(aged.old_in(folder, node))}
    return {node: data for node, data in found.items() if len(data) < MEGA}


def may_be(old, now, new):
    """Whether a journal of the first version may be so now, and the new one beside it."""
    if now == old:
        return True
    if old[:1] != b"C" or now != aged.spent(old):
        return False
    becomes = aged.migrated(aged.old_header_of(old), old)
    return not isinstance(becomes, int) and (new or b"").startswith(becomes[:-1])


def old_faults(folder, before):
    """What is wrong with the journals of the first version of a folder, where these stood before."""
    now = olds(folder)
    wrong = [f"a journal of the first version is made, of node {node}" for node in now if node not in before]
    for node, old in before.items():
        if node not in now or not may_be(old, now[node], content(aged.new_in(folder, node))):
            wrong.append(f"the journal of the first version of node {node} is lost or another")
    return wrong


def strangers(folder):
    """The files of a folder that no build reads or writes."""
    own = re.compile(r"node\d\.cf[2j]|linked\.cfp(\.new)?|cfarm\.lock")
    names = [name for name in os.listdir(folder) if not own.fullmatch(name)]
    paths = {name: os.path.join(folder, name) for name in names}
    return {name: content(path) for name, path in paths.items() if os.path.isfile(path) and os.path.getsize(path) < MEGA}


def tell(line):
    if sys.stderr.isatty():
        print(f"\r{line}\x1b[K", end="", file=sys.stderr, flush=True)


class Sweep:
    """The program, where it is run, what was tried, and what was wrong."""

    def __init__(self, given, scratch):
        self.given, self.scratch = given, scratch
        self.program = shutil.copy(given.program, os.path.join(scratch, "cfarm"))
        self.shim, self.measured = os.path.join(scratch, "shim.so"), os.path.join(scratch, "measured")
        self.rows, self.slowest, self.wrong, self.ran = {}, {}, [], {}
        shim.build(self.shim)
        self.compile("measured.c", MEASURED, "-o", self.measured)

    def compile(self, name, code, *words):
        path = os.path.join(self.scratch, name)
        write(path, code.encode())
        before, libraries = [w for w in words if w != "-ldl"], [w for w in words if w == "-ldl"]
        subprocess.run(["cc", "-O2", "-w", *before, path, *libraries], check=True)

    def file(self, name, data):
        """A file of the scratch folder with these bytes."""
        path = os.path.join(self.scratch, name)
        write(path, data)
        return path

    def folder(self, like=None):
        """A folder of its own, empty or like another."""
        made = tempfile.mkdtemp(dir=self.scratch)
        os.chmod(made, 0o777)
        if like:
            shutil.copytree(like, made, dirs_exist_ok=True)
        return made

    def leave(self, folder):
        if not self.given.keep:
            shutil.rmtree(folder, ignore_errors=True)

    def run(self, words, seconds=300, **more):
        """What the program answers to these words."""
        try:
            env = {**os.environ, **more}
            ran = subprocess.run([self.program, *words], capture_output=True, stdin=subprocess.DEVNULL, check=False, timeout=seconds, env=env)
        except subprocess.TimeoutExpired:
            return ENDLESS
        return Answer(ran.returncode, ran.stdout, ran.stderr)

    def faulty(self, words, way, number, told):
        """Its answer where the call of this number fails; how many calls there were, and the name of the one that failed, if one did."""
        answer = self.run(words, **shim.variables(self.shim, told, *way, number))
        return answer, *shim.seen(told)

    def measure(self, words, seconds=60, limit=0, around=None, folder=None):
        """Its answer in a folder, its milliseconds and its peak kilobytes. `around` is a script of the shell that runs "$@"."""
        file = os.path.join(self.folder(), "measured")
        called = [self.measured, file, str(limit), *(["sh", "-c", around, "sh"] if around else []), self.program, *words]
        try:
            ran = subprocess.run(called, capture_output=True, stdin=subprocess.DEVNULL, check=False, timeout=seconds, cwd=folder)
            status, millis, peak = (int(word) for word in (content(file) or b"99 0 0").split())
            return Answer(status, ran.stdout, ran.stderr), millis, peak
        except subprocess.TimeoutExpired:
            return ENDLESS, seconds * 1000, 0
        finally:
            shutil.rmtree(os.path.dirname(file))

    def executed(self, linked):
        """What `exec` answers to a linked program. Equal bytes are run once."""
        key = hashlib.sha256(content(linked)).digest()
        if key not in self.ran:
            self.ran[key] = self.run(["exec", linked, "--limit", "1000000000000"])
        return self.ran[key]

    def interpreted(self, text):
        return self.run(["interpret", text, "--depth", "4294967295"])

    def count(self, row, name, wrong):
        self.rows.setdefault(row, collections.Counter())[name or "another"] += 1
        for one in wrong:
            self.wrong.append(f"{row}: {one}")
            print(f"WRONG {row}: {one}", file=sys.stderr, flush=True)

    def wants(self, row):
        return self.given.row in row

    def spread(self, numbers):
        """These numbers, or as many of them as are asked for, evenly."""
        most = min(self.given.most, 40 if self.given.quick else self.given.most)
        numbers = list(numbers)
        return numbers[:: max(1, -(-len(numbers) // most))]

    def try_all(self, row, numbers, job):
        """Does the job for each number, several at once. It answers the name of what was answered, if anything was tried, and what was wrong."""
        numbers = [self.given.at] if self.given.at else self.spread(numbers)

        def timed(number):
            start = time.monotonic()
            found = job(number)
            self.slowest[row] = max(self.slowest.get(row, 0), time.monotonic() - start)
            return found

        with concurrent.futures.ThreadPoolExecutor(self.given.jobs) as pool:
            for done, (name, wrong) in enumerate(pool.map(timed, numbers), 1):
                if name or wrong:
                    self.count(row, name, wrong)
                tell(f"{row}: {done} of {len(numbers)}")


# Faults of memory and of calls.

WAYS = {
    "memory": (("once", "m", False), ("from then on", "m", True)),
    "threads": (("once", "t", False), ("from then on", "t", True)),
    "calls": (
        ("once", "c", False),
        ("from then on", "c", True),
        ("interrupted", "i", False),
        ("less", "l", False),
        ("less from then on", "l", True),
    ),
    "kills": (("killed", "k", False),),
}


def judge(answer, wanted, part):
    """The name of an answer of a command that only reads, and what is wrong with it."""
    name = name_of(answer)
    if answer == wanted:
        return "the same", []
    # Of a mistake in the command line a part of the text may be left out for want of memory.
    right = {
        "memory": ("memory", *(["words"] if wanted.status == 2 else [])),
        "threads": ("memory",),
        "calls": ("file", "undecided", "write 701", "no line"),
    }[part]
    if name in right and wanted.out.startswith(answer.out):
        return name, []
    return name, [shown(answer)]


def readers(sweep):
    """The commands that only read, each with its words."""
    text, built = sweep.file("text.c", TEXT.encode()), sweep.folder()
    sweep.run(["build", text, "--dir", built])
    linked = shutil.copy(os.path.join(built, "linked.cfp"), os.path.join(sweep.scratch, "text.cfp"))
    example = os.path.join(ROOT, "examples", "")
    journal = shutil.copy(aged.new_in(built, 0), os.path.join(sweep.scratch, "text.cf2"))
    made = {of: sweep.file(f"text.{of}", sweep.run(["emit", text, "--of", of, "--seed", "1"]).out) for of in ("linear", "bundle")}
    bundle = ["--bundle", made["bundle"]]
    return {
        "check": ["check", text],
        "check, refused": ["check", sweep.file("refused.c", b"int main(void){return x;}\n")],
        "check, no file": ["check", text + ".none"],
        "interpret": ["interpret", text],
        "exec": ["exec", linked],
        "exec, bounded": ["exec", linked, "--limit", "20"],
        "settle": ["settle", example + "branch.ltl"],
        "sim": ["sim", example + "adoption.txt"],
        "sim, drawn": ["sim", example + "adoption.txt", "--svg"],
        "show": ["show", linked],
        "log": ["log", journal],
        "emit": ["emit", text, "--of", "bundle", "--seed", "1"],
        "verify": ["verify", text, "--program", made["linear"], *bundle],
        "verify, another program": ["verify", text, "--program", linked, *bundle],
        "verify, no bundle": ["verify", text, "--program", linked, "--bundle", linked],
        "judge, no offer": ["judge", text, "--function", "main", "--offer", made["bundle"]],
        "help": ["build", "--help"],
        "no command": ["chek", text],
    }


def calls_of(sweep, words, way, like=None):
    """How many calls there are to fail, in a folder like this one."""
    folder = sweep.folder(like)
    _, seen, _ = sweep.faulty(words(folder), way, 0, os.path.join(folder, "told"))
    sweep.leave(folder)
    return seen


def try_readers(sweep, part):
    for title, words in readers(sweep).items():
        wanted = sweep.run(words)
        for way, *how in WAYS[part]:
            row = f"{part}, {title}, {way}"
            if not sweep.wants(row):
                continue

            def job(number, words=words, wanted=wanted, how=how):
                folder = sweep.folder()
                answer, _, failed = sweep.faulty(words, how, number, os.path.join(folder, "told"))
                sweep.leave(folder)
                if not failed:
                    return None, [] if answer == wanted else [f"no fault, {shown(answer)}"]
                name, wrong = judge(answer, wanted, part)
                return name, [f"call {number}, {failed}: {one}" for one in wrong]

            sweep.try_all(row, range(1, calls_of(sweep, lambda _, words=words: words, how) + 1), job)


class Building:
    """A build of a text over folders like one that is given, and what must stand there behind a fault of it."""

    def __init__(self, sweep, text, like=None, sizes=()):
        self.sweep, self.text, self.like, self.sizes = sweep, text, like, sizes
        self.wanted = sweep.interpreted(text)

    def words(self, folder):
        return ["build", self.text, *self.sizes, "--seed", "1", "--dir", folder]

    def sound(self, folder):
        """What is wrong with a linked program that stands there."""
        ran = self.sweep.executed(os.path.join(folder, "linked.cfp"))
        return [] if ran == self.wanted else [f"linked.cfp runs otherwise: {shown(ran)}"]

    def report(self, folder, answer):
        """What is wrong with a build that is done."""
        found = content(os.path.join(folder, "linked.cfp"))
        try:
            told = json.loads(answer.out)["linked"]
        except (ValueError, KeyError):
            told = None
        if found is None or hashlib.sha256(found).hexdigest() != told or answer.err:
            return [f"not what was reported: {shown(answer)}"]
        return self.sound(folder)

    def again(self, folder, stood):
        """What is wrong with a further build, without faults, where this stood in linked.cfp."""
        before = olds(folder)
        answer = self.sweep.run(self.words(folder))
        if answer.status != 0:
            return [f"the build behind it: {shown(answer)}"]
        wrong = self.report(folder, answer) + old_faults(folder, before)
        if stood is not None and content(os.path.join(folder, "linked.cfp")) != stood:
            wrong.append("the build behind it leaves another linked.cfp")
        if os.path.exists(os.path.join(folder, "linked.cfp.new")):
            wrong.append("the build behind it leaves linked.cfp.new")
        return wrong

    def behind(self, folder, answer, old):
        """What is wrong behind a build that was to fail, where this stood before in linked.cfp."""
        now = content(os.path.join(folder, "linked.cfp"))
        wrong = self.report(folder, answer) if answer.status == 0 else []
        if answer.status != 0 and not b'{"functions":'.startswith(answer.out[:13]):
            wrong.append(f"its output is no beginning of a report: {shown(answer)}")
        if old is not None and now != old:
            wrong.append("linked.cfp is lost or another")
        if now is not None and answer.status != 0:
            wrong += self.sound(folder)
        return wrong + self.again(folder, now)

    def fault(self, how, right, number):
        """Tries one fault: the name of its answer, and what was wrong."""
        folder = self.sweep.folder(self.like)
        old, before = content(os.path.join(folder, "linked.cfp")), olds(folder)
        told = os.path.join(folder, "told")
        answer, _, failed = self.sweep.faulty(self.words(folder), how, number, told)
        name = "killed" if how[0] == "k" and answer.status == -signal.SIGKILL else name_of(answer)
        wrong = [] if name in (right if failed else ("done",)) else [shown(answer)]
        wrong += old_faults(folder, before) + self.behind(folder, answer, old)
        self.sweep.leave(folder)
        return name if failed else None, [f"call {number}, {failed or 'no fault'}: {one}" for one in wrong]


def killed_folder(sweep, text):
    """The folder of a build that was killed halfway, before it had linked."""
    folder = sweep.folder()
    words = Building(sweep, text).words(folder)
    seen = calls_of(sweep, Building(sweep, text).words, ("k", False))
    sweep.faulty(words, ("k", False), max(1, seen // 2), os.path.join(sweep.scratch, "told"))
    return folder


def aged_folder(sweep, like, which=None):
    """A folder like this one, with journals of the first version."""
    folder = sweep.folder(like)
    aged.age(folder, which)
    return folder


def try_builds(sweep, part):
    """Faults of a build in a fresh folder, over one that a killed build left, and over one of a build that was done; over the last two with
    journals of the first version too, of all nodes or of one."""
    text = sweep.file("built.c", TEXT.encode())
    done = sweep.folder()
    sweep.run(Building(sweep, text).words(done))
    right = {
        "memory": ("done", "memory"),
        "threads": ("done", "memory"),
        "calls": ("done", "file", "journal", "undecided", "write 701", "no line"),
        "kills": ("killed",),
    }[part]
    killed = killed_folder(sweep, text)
    folders = (
        ("fresh", None),
        ("after a kill", killed),
        ("again", done),
        ("first version, after a kill", aged_folder(sweep, killed)),
        ("first version, again", aged_folder(sweep, done)),
        ("first version of node 1, again", aged_folder(sweep, done, (1,))),
    )
    for title, like in folders:
        building = Building(sweep, text, like)
        for way, *how in WAYS[part]:
            row = f"{part}, build, {title}, {way}"
            if sweep.wants(row):
                seen = calls_of(sweep, building.words, how, like)
                # Threads make it differ how many calls there are.
                sweep.try_all(row, range(1, seen + seen // 16 + 1), lambda number: building.fault(how, right, number))


def try_memory(sweep):
    try_readers(sweep, "memory")
    try_builds(sweep, "memory")


def try_threads(sweep):
    try_readers(sweep, "threads")
    try_builds(sweep, "threads")


def try_calls(sweep):
    try_readers(sweep, "calls")
    try_builds(sweep, "calls")


def try_kills(sweep):
    try_builds(sweep, "kills")
    sizes = ("--nodes", "4", "--promise", "3", "--accept", "2")
    try_random_kills(sweep, "kills, at random moments", ("--nodes", "5"))
    try_random_kills(sweep, "kills, at random moments, sizes 4 3 2", sizes)
    try_random_kills(sweep, "kills, at random moments, first version", ("--nodes", "5"), True)
    try_random_kills(sweep, "kills, at random moments, first version, sizes 4 3 2", sizes, True)


def try_random_kills(sweep, row, sizes, is_aged=False):
    if not sweep.wants(row) or sweep.given.at:
        return
    random_kills = kills.Kills(sweep.program, sizes, 1, is_aged)
    for number in range(5 if sweep.given.quick else sweep.given.times):
        before = len(random_kills.wrong)
        random_kills.directory(number)
        tell(f"{row}: {random_kills.kills}")
        for one in random_kills.wrong[before:]:
            sweep.count(row, None, [one])
    sweep.rows.setdefault(row, collections.Counter())["killed"] += random_kills.kills


# Journals from strangers.


class Journals:
    """The journals of a small build, of which one is another. `path` gives the file of a node's, `make` makes the folder of a build ready."""

    def __init__(self, sweep, sizes, path, make):
        self.sweep, self.path = sweep, path
        self.like = sweep.folder()
        self.building = Building(sweep, sweep.file("small.c", SMALL.encode()), self.like, sizes)
        sweep.run(self.building.words(self.like))
        make(self)
        self.linked = content(os.path.join(self.like, "linked.cfp"))
        self.usual = max(self.peak() for _ in range(5))

    def peak(self):
        """How much memory a build takes in a folder like it."""
        folder = self.sweep.folder(self.like)
        _, _, peak = self.sweep.measure(self.building.words(folder))
        self.sweep.leave(folder)
        return peak

    def too_much(self, folder, size, tries=3):
        """Builds over a folder; again where it took too long, as it may where other runs go on. Its answer, and whether it took too much."""
        answer, millis, peak = self.sweep.measure(self.building.words(folder), 20)
        most = self.usual + 16 * size // 1024 + 4096
        wrong = [f"{peak} KB at most, {self.usual} usually"] if peak > most else []
        if millis < 1000 or tries == 0:
            return answer, wrong + ([f"{millis} ms"] if millis >= 1000 else [])
        again, wrong_again = self.too_much(folder, size, tries - 1)
        return (answer if again.status == 0 else again), wrong_again

    def over(self, node, data, what):
        """Builds where the journal of a node has these bytes."""
        folder = self.sweep.folder(self.like)
        write(self.path(folder, node), data)
        before = olds(folder)
        answer, wrong = self.too_much(folder, len(data))
        name, linked = name_of(answer), os.path.join(folder, "linked.cfp")
        wrong += old_faults(folder, before)
        if name not in ("done", "journal", "link", "undecided"):
            wrong.append(shown(answer))
        if name == "done":
            wrong += self.building.report(folder, answer)
            name += ", the same" if content(linked) == self.linked else ", another"
        elif content(linked) != self.linked:
            wrong.append("linked.cfp is lost or another")
        self.sweep.leave(folder)
        return name, [f"node {node}, {what}: {one}" for one in wrong]


def as_built(journals):
    """The journals that the build left."""


def of_first_version(journals):
    """Those of the first version with the same records."""
    aged.age(journals.like)


def migrated(journals):
    """Those that these were migrated to, without the old ones beside."""
    aged.age(journals.like)
    journals.sweep.run([*journals.building.words(journals.like), "--turns", "0"])
    for node in range(7):
        if os.path.exists(aged.old_in(journals.like, node)):
            os.remove(aged.old_in(journals.like, node))


def try_journals(sweep):
    for version, path, make in (
        ("journals", aged.new_in, as_built),
        ("journals of the first version", aged.old_in, of_first_version),
        ("journals that are migrated", aged.new_in, migrated),
    ):
        try_journals_of(sweep, version, (), 3, path, make)
        try_journals_of(sweep, version + ", sizes 2 1 2", ("--nodes", "2", "--promise", "1", "--accept", "2"), 2, path, make)


def try_journals_of(sweep, title, sizes, nodes, path, make):
    if not any(sweep.wants(f"{title}, node {node}, {way}") for node in range(nodes) for way in ("cut", "changed")):
        return
    journals, draw = Journals(sweep, sizes, path, make), random.Random(1)
    for node in range(nodes):
        data = content(path(journals.like, node))
        row = f"{title}, node {node}, cut"
        if sweep.wants(row):
            sweep.try_all(row, range(len(data)), lambda length: journals.over(node, data[:length], f"cut to {length}"))
        row = f"{title}, node {node}, changed"
        changes = [draw.randrange(1, 256) for _ in data]

        def changed(place):
            byte = (data[place] + changes[place]) % 256
            return journals.over(node, data[:place] + bytes([byte]) + data[place + 1 :], f"byte {place} is {byte}")

        if sweep.wants(row):
            sweep.try_all(row, range(len(data)), changed)


# What else may stand in the way.


class Case:
    """One case of files and streams: how it is called, which answers are right, what is made of a folder, the words, what runs them.
    `mends` takes away what stood in the way; a build behind it must then be done. `most` is how many bytes of memory it may take. It
    stands over a build that was done, with journals of the first version where it is aged, or over nothing."""

    def __init__(self, title, right, prepare=None, words=None, around=None, mends=None, is_built=True, is_aged=False, most=LIMITED):
        self.title, self.right, self.prepare, self.words = title, right, prepare, words
        self.around, self.mends, self.is_built, self.is_aged, self.most = around, mends, is_built, is_aged, most


def journal(folder, node=1):
    return aged.new_in(folder, node)


def old_journal(folder, node=1):
    return aged.old_in(folder, node)


def linked_in(folder):
    return os.path.join(folder, "linked.cfp")


def lock_in(folder):
    return os.path.join(folder, "cfarm.lock")


def aside_in(folder):
    return os.path.join(folder, "aside")


def replaced(make, path=journal):
    """Makes another file of a journal: `make` gets its path, where nothing stands, since the file is put aside."""

    def prepare(folder):
        if os.path.exists(path(folder)):
            os.rename(path(folder), path(folder) + ".aside")
        make(path(folder))

    return prepare


def put_back(folder, path=journal):
    """Puts back the file that was put aside, if one was. A node that has lost its journal has forgotten what it acknowledged, and need not
    come back."""
    if os.path.isdir(path(folder)):
        os.rmdir(path(folder))
    if os.path.exists(path(folder) + ".aside"):
        os.replace(path(folder) + ".aside", path(folder))
    elif os.path.lexists(path(folder)):
        os.remove(path(folder))


def put_back_old(folder):
    put_back(folder, old_journal)


def linked_to(path):
    """Makes a link to a file of the folder, which has to stay as it is, where a file of the build is wanted."""

    def prepare(folder):
        if os.path.exists(path(folder)):
            os.remove(path(folder))
        write(aside_in(folder), b"aside")
        os.symlink("aside", path(folder))

    return prepare


def sparse(path):
    with open(path, "wb") as file:
        file.truncate(4 << 30)


def noise(path):
    write(path, os.urandom(64 * MEGA))


def swap(folder):
    one, two = content(journal(folder, 0)), content(journal(folder, 1))
    write(journal(folder, 0), two)
    write(journal(folder, 1), one)


def forbid(folder):
    os.chmod(journal(folder), 0o600)


def forbid_folder(folder):
    os.chmod(folder, 0o555)


def journal_cases():
    """A journal that is none."""
    link = lambda target: replaced(lambda path: os.symlink(target, path))
    sized = lambda *sizes: lambda text, folder: ["build", text, *sizes, "--dir", folder]
    kept = lambda folder: None
    return [
        Case("no journal", ("done", "journal"), lambda folder: os.remove(journal(folder))),
        Case("journal of 0 bytes", ("done", "journal"), replaced(lambda path: write(path, b"")), mends=put_back),
        Case("journal of 4 GB of zeros", ("journal", "memory"), replaced(sparse), mends=put_back),
        Case("journal of 64 MB of noise", ("journal",), replaced(noise), mends=put_back, most=512 * MEGA),
        Case("journal is a folder", ("file",), replaced(os.mkdir), mends=put_back),
        Case("journal is a pipe", ("file", "journal"), replaced(os.mkfifo), mends=put_back),
        Case("journal is endless", ("file", "journal", "memory"), link("/dev/zero"), mends=put_back),
        Case("journal is a full device", ("file", "journal", "memory"), link("/dev/full"), mends=put_back),
        Case("journal is no device", ("done", "file", "journal"), link("/dev/null"), mends=put_back),
        Case("journal is a link to nothing", ("done", "file"), link("none/none"), mends=put_back),
        Case("journals exchanged", ("journal",), swap, mends=swap),
        Case("journals of another number of nodes", ("journal",), words=sized("--nodes", "5"), mends=kept),
        Case("journals of an even number of nodes", ("journal",), words=sized("--nodes", "2"), mends=kept),
        Case("journals of other sizes of quorums", ("journal",), words=sized("--promise", "3", "--accept", "1"), mends=kept),
        Case("sizes of quorums that need not meet", ("quorums",), words=sized("--promise", "1"), mends=kept),
        Case("sizes of quorums above the number of nodes", ("quorums",), words=sized("--accept", "4"), mends=kept),
    ]


def old_journal_cases():
    """A journal of the first version that is none: over such journals, and beside new ones, where it does not count."""
    link = lambda target: replaced(lambda path: os.symlink(target, path), old_journal)
    other = lambda make: replaced(make, old_journal)
    case = lambda title, right, prepare, mends=put_back_old, **more: Case("old " + title, right, prepare, mends=mends, is_aged=True, **more)
    beside = lambda title, right, prepare, mends=put_back_old, **more: Case("beside new, old " + title, right, prepare, mends=mends, **more)
    kept = lambda folder: None
    return [
        Case("old journals", ("done",), is_aged=True, mends=kept),
        Case("old journals, no turns", ("undecided",), words=lambda text, folder: ["build", text, "--turns", "0", "--dir", folder], is_aged=True, mends=kept),
        case("journal is not there", ("done", "journal"), lambda folder: os.remove(old_journal(folder)), mends=None),
        case("journal of 0 bytes", ("done", "journal"), other(lambda path: write(path, b"")), mends=None),
        case("journal of 4 GB of zeros", ("journal", "memory"), other(sparse)),
        case("journal of 64 MB of noise", ("journal",), other(noise), most=512 * MEGA),
        case("journal is a folder", ("file",), other(os.mkdir)),
        case("journal is a pipe", ("file",), other(os.mkfifo)),
        case("journal is endless", ("file", "journal", "memory"), link("/dev/zero")),
        case("journal is a full device", ("file", "journal", "memory"), link("/dev/full")),
        case("journal is a link to nothing", ("file",), link("none/none")),
        case("journal's new one is a folder", ("file",), lambda folder: os.mkdir(journal(folder)), mends=lambda folder: os.rmdir(journal(folder))),
        case("journal's new one is a link to nothing", ("file",), lambda folder: os.symlink("none/none", journal(folder)), mends=lambda folder: os.remove(journal(folder))),
        case("journal's new one is noise", ("done",), lambda folder: write(journal(folder), random.Random(1).randbytes(40)), mends=kept),
        case("journals exchanged", ("journal",), swap_old, mends=swap_old),
        beside("journal of 0 bytes", ("done",), other(lambda path: write(path, b""))),
        beside("journal of 4 GB of zeros", ("done", "memory"), other(sparse)),
        beside("journal that is spent", ("done",), lambda folder: write(old_journal(folder), b"\0FJ1")),
        beside("journal of one byte that counts", ("journal",), lambda folder: write(old_journal(folder), b"C")),
        beside("journal is a folder", ("file",), other(os.mkdir)),
        beside("journal is a pipe", ("file",), other(os.mkfifo)),
        beside("journal is no device", ("file", "done"), link("/dev/null")),
        beside("journal is a link to nothing", ("file",), link("none/none")),
    ]


def swap_old(folder):
    one, two = content(old_journal(folder, 0)), content(old_journal(folder, 1))
    write(old_journal(folder, 0), two)
    write(old_journal(folder, 1), one)


def folder_cases():
    """Folders and files that are none."""
    no_folder = lambda text, folder: ["build", text, "--dir", os.path.join(folder, "none")]
    in_file = lambda text, folder: ["build", text, "--dir", journal(folder)]
    no_text = lambda text, folder: ["build", text + ".none", "--dir", folder]
    beside = lambda folder: linked_in(folder) + ".new"
    kept = lambda folder: None
    return [
        Case("no folder", ("file",), words=no_folder, mends=kept),
        Case("folder is a file", ("file",), words=in_file, mends=kept),
        Case("folder has no name", ("done", "file", "words"), words=lambda text, folder: ["build", text, "--dir", ""], mends=kept),
        Case("no text", ("file",), words=no_text, mends=kept),
        Case("text is a folder", ("file",), words=lambda text, folder: ["build", folder, "--dir", folder], mends=kept),
        Case("text is endless", ("file", "memory"), words=lambda text, folder: ["build", "/dev/zero", "--dir", folder], mends=kept),
        Case("text is empty", ("refused",), words=lambda text, folder: ["build", "/dev/null", "--dir", folder], mends=kept),
        Case("linked.cfp is a folder", ("file",), replaced(os.mkdir, linked_in), mends=lambda folder: put_back(folder, linked_in)),
        Case("linked.cfp is a pipe", ("file",), replaced(os.mkfifo, linked_in), mends=lambda folder: put_back(folder, linked_in)),
        Case("linked.cfp is a link", ("file",), replaced(lambda path: os.symlink("none/none", path), linked_in), mends=lambda folder: put_back(folder, linked_in)),
        Case("linked.cfp.new is a folder", ("file",), lambda folder: os.mkdir(beside(folder)), mends=lambda folder: os.rmdir(beside(folder))),
        Case("linked.cfp.new is a pipe", ("file",), lambda folder: os.mkfifo(beside(folder)), mends=lambda folder: os.remove(beside(folder))),
        Case("linked.cfp.new is a link", ("done",), lambda folder: os.symlink("/dev/full", beside(folder)), mends=kept),
        Case("linked.cfp.new is a link to a file", ("done",), linked_to(beside), mends=kept),
        Case("linked.cfp.new is a link to nothing", ("done",), lambda folder: os.symlink("none/none", beside(folder)), mends=kept),
        Case("linked.cfp.new is a file", ("done",), lambda folder: write(beside(folder), b"old"), mends=kept),
        Case("cfarm.lock is a folder", ("file",), replaced(os.mkdir, lock_in), mends=lambda folder: put_back(folder, lock_in)),
        Case("cfarm.lock is a pipe", ("file",), replaced(os.mkfifo, lock_in), mends=lambda folder: put_back(folder, lock_in)),
        Case("cfarm.lock is a link to nothing", ("done", "file"), replaced(lambda path: os.symlink("none/none", path), lock_in), mends=lambda folder: put_back(folder, lock_in)),
        Case("cfarm.lock is a link to a file", ("done",), linked_to(lock_in), mends=kept),
        Case("cfarm.lock has bytes", ("done",), lambda folder: write(lock_in(folder), b"left"), mends=kept),
        Case("no turns", ("undecided",), words=lambda text, folder: ["build", text, "--turns", "0", "--dir", folder], is_built=False, mends=kept),
    ]


def stream_cases():
    """Streams that are closed or full, and limits of the shell."""
    kept = lambda folder: None
    shell = lambda title, right, around: Case(title, right, around=around, mends=kept)
    fresh = lambda title, right, around: Case(title + ", fresh", right, around=around, mends=kept, is_built=False)
    scripts = [
        ("input closed", ("done",), 'exec "$@" <&-'),
        ("output closed", ("write 701",), 'exec "$@" >&-'),
        ("errors closed", ("done",), 'exec "$@" 2>&-'),
        ("all closed", ("no line",), 'exec "$@" <&- >&- 2>&-'),
        ("output on a full device", ("write 701",), 'exec "$@" >/dev/full'),
        ("errors on a full device", ("done",), 'exec "$@" 2>/dev/full'),
        ("output that nobody reads", ("write 701",), 's=$({ { sleep 0.1; "$@"; echo $? >&4; } | true; } 4>&1); exit $s'),
        ("output and errors on a full device", ("no line",), 'exec "$@" >/dev/full 2>&1'),
        ("files of 1 KB at most", ("done", "file", "journal"), 'trap "" XFSZ; ulimit -f 2; exec "$@"'),
        ("four open files", ("done", "file"), 'ulimit -n 4; exec "$@"'),
        ("six open files", ("done", "file"), 'ulimit -n 6; exec "$@"'),
        ("a stack of 256 KB", ("done",), 'ulimit -s 256; exec "$@"'),
    ]
    return [shell(*one) for one in scripts] + [fresh(*one) for one in scripts]


def text_cases(sweep):
    """Texts that are huge, deep or no text."""
    deep = 200_000
    huge = sweep.file("huge.c", b" " * (64 * MEGA) + TEXT.encode())
    waste = sweep.file("noise.c", random.Random(1).randbytes(64 * MEGA))
    nested = sweep.file("deep.c", b"int main(void){return " + b"(" * deep + b"1" + b")" * deep + b";}")
    blocks = sweep.file("blocks.c", b"int main(void){" + b"{" * deep + b"}" * deep + b"return 1;}")
    minus = sweep.file("minus.c", b"int main(void){return " + b"- " * deep + b"1;}")
    found = []
    for command, more in (("check", ()), ("interpret", ()), ("build", ("--dir",))):
        for name, path, right in (
            ("64 MB of blanks", huge, ("done", "refused")),
            ("64 MB of noise", waste, ("refused",)),
            ("brackets in one another", nested, ("refused",)),
            ("blocks in one another", blocks, ("refused",)),
            ("signs in one another", minus, ("refused",)),
        ):
            words = lambda text, folder, c=command, p=path, m=more: [c, p, *m, *([folder] if m else [])]
            found.append(Case(f"{command}, {name}", right, words=words, is_built=False))
    for command in ("exec", "settle", "sim"):
        for name, path in (("endless", "/dev/zero"), ("empty", "/dev/null"), ("64 MB of noise", waste), ("a folder", sweep.scratch)):
            right = {"endless": ("memory",), "a folder": ("file",)}.get(name, ("done", "refused", "schedule"))
            found.append(Case(f"{command}, {name}", right, words=lambda text, folder, c=command, p=path: [c, p], is_built=False))
    return found


def forbidden_cases():
    """What another user may not do. Only root can be another one."""
    if os.geteuid() != 0 or not shutil.which("setpriv"):
        return []
    other = 'exec setpriv --reuid 65534 --regid 65534 --clear-groups "$@"'
    allow = lambda folder: os.chmod(journal(folder), 0o666)
    allow_folder = lambda folder: os.chmod(folder, 0o777)
    allow_old = lambda folder: os.chmod(old_journal(folder), 0o666)
    allow_lock = lambda folder: os.chmod(lock_in(folder), 0o666)
    only_read = lambda folder: (open_all(folder), os.chmod(old_journal(folder), 0o444))
    open_all = lambda folder: [os.chmod(os.path.join(folder, name), 0o666) for name in os.listdir(folder)]
    only_read_of = lambda path: (write(path, b""), open_all(os.path.dirname(path)), os.chmod(path, 0o444))
    forbidden = lambda folder: (open_all(folder), forbid(folder))
    closed = lambda folder: (open_all(folder), forbid_folder(folder))
    return [
        Case("another user", ("done",), open_all, around=other, mends=lambda folder: None),
        Case("journal is forbidden", ("file",), forbidden, around=other, mends=allow),
        Case("old journal may be read alone", ("file",), only_read, around=other, mends=allow_old, is_aged=True),
        Case("another user, old journals", ("done",), open_all, around=other, mends=lambda folder: None, is_aged=True),
        Case("cfarm.lock may be read alone", ("file",), lambda folder: only_read_of(lock_in(folder)), around=other, mends=allow_lock),
        Case("linked.cfp.new may be read alone", ("done",), lambda folder: only_read_of(linked_in(folder) + ".new"), around=other, mends=lambda folder: None),
        Case("folder is forbidden", ("file",), closed, around=other, mends=allow_folder),
        Case("folder is forbidden, fresh", ("file",), forbid_folder, around=other, mends=allow_folder, is_built=False),
    ]


def mounted(folder, options):
    """Whether a file system in memory is mounted there; only root can do that, and not everywhere."""
    ran = subprocess.run(["mount", "-t", "tmpfs", "-o", options, "tmpfs", folder], capture_output=True, check=False)
    return ran.returncode == 0


def unmounted(folder):
    if os.path.ismount(folder):
        subprocess.run(["umount", folder], capture_output=True, check=False)


def full_cases(sweep):
    """Small file systems, in memory, which grow behind the build."""
    tried = sweep.folder()
    if not mounted(tried, "size=4k"):
        return []
    unmounted(tried)
    grown = lambda folder: mounted(folder, "remount,size=4m")
    return [
        Case(f"file system of {size} KB", ("done", "file", "journal"), lambda folder, s=size: mounted(folder, f"size={s}k"), mends=grown, is_built=False)
        for size in (4, 8, 12, 16, 20, 24, 32, 48)
    ]


def try_case(sweep, case, building, built):
    """Tries one case: the name of its answer, and what was wrong."""
    folder = sweep.folder(built if case.is_built else None)
    try:
        if case.is_aged:
            aged.age(folder)
        if case.prepare:
            case.prepare(folder)
        old, before, others = content(linked_in(folder)), olds(folder), strangers(folder)
        words = case.words(building.text, folder) if case.words else building.words(folder)
        answer, millis, peak = sweep.measure(words, 60, LIMITED, case.around, folder)
        name, wrong = name_of(answer), []
        if name not in case.right:
            wrong.append(f"{shown(answer)}, {millis} ms, words {words}")
        if peak * 1024 > case.most:
            wrong.append(f"it takes {peak} KB")
        # The report is printed last: a fresh program stands there where that failed.
        is_placed = old is None and name in ("done", "write 701", "no line")
        if content(linked_in(folder)) != old and not is_placed:
            wrong.append(f"linked.cfp is lost or another: {shown(answer)}")
        wrong += old_faults(folder, before)
        if strangers(folder) != others:
            wrong.append("a file that is none of the build's is lost or another")
        if case.mends:
            now = content(linked_in(folder))
            case.mends(folder)
            wrong += building.again(folder, now)
        return name, [f"{case.title}: {one}" for one in wrong]
    finally:
        unmounted(folder)
        sweep.leave(folder)


def try_files(sweep):
    building, built = Building(sweep, sweep.file("files.c", TEXT.encode())), sweep.folder()
    sweep.run(building.words(built))
    groups = {
        "journals": journal_cases(),
        "old journals": old_journal_cases(),
        "folders and files": folder_cases(),
        "streams and limits": stream_cases(),
        "texts": text_cases(sweep),
        "another user": forbidden_cases(),
        "full file systems": full_cases(sweep),
    }
    for title, cases in groups.items():
        row = f"files, {title}"
        if sweep.wants(row):
            # One by one: some are huge.
            for number, case in enumerate(cases, 1):
                if not sweep.given.at or sweep.given.at == number:
                    tell(f"{row}: {case.title}")
                    sweep.count(row, *try_case(sweep, case, building, built))


# Terminals.


def shown_on_terminal(sweep, words):
    """What a build shows on a terminal as its standard error."""
    ours, theirs = pty.openpty()
    with subprocess.Popen([sweep.program, *words], stdout=subprocess.DEVNULL, stdin=subprocess.DEVNULL, stderr=theirs) as run:
        os.close(theirs)
        found = b""
        try:
            while part := os.read(ours, 4096):
                found += part
        except OSError:
            pass
        run.wait()
    os.close(ours)
    return found.decode()


def try_terminals(sweep):
    """A build shows on a terminal how many journals it has migrated, once, and elsewhere nothing."""
    text, done = sweep.file("shown.c", SMALL.encode()), sweep.folder()
    building = Building(sweep, text)
    sweep.run(building.words(done))
    folders = (
        ("fresh", sweep.folder(), None),
        ("again", done, None),
        ("first version", aged_folder(sweep, done), "migrated 3 of 3 journals\r\n"),
        ("first version of node 1", aged_folder(sweep, done, (1,)), "migrated 1 of 3 journals\r\n"),
    )
    for title, folder, line in folders:
        row = f"terminals, {title}"
        if not sweep.wants(row):
            continue
        beside = sweep.folder(folder)
        found = shown_on_terminal(sweep, building.words(folder))
        answer = sweep.run(building.words(beside))
        wrong = [f"shown: {found!r}"] if found.count("migrated") != (line is not None) or (line or "") not in found else []
        sweep.count(row, name_of(answer), wrong + building.report(beside, answer))


# Two builds at once.


def started(sweep, words):
    return subprocess.Popen([sweep.program, *words], stdout=subprocess.PIPE, stderr=subprocess.PIPE, stdin=subprocess.DEVNULL)


def answer_of(process):
    out, err = process.communicate(timeout=300)
    return Answer(process.returncode, out, err)


def try_pairs(sweep):
    """Each of two builds that are started at once is done, or is told that the other has the folder, and the folder is as any other behind them."""
    text = sweep.file("pair.c", TEXT.encode())
    done = sweep.folder()
    sweep.run(Building(sweep, text).words(done))
    killed = killed_folder(sweep, text)
    folders = (
        ("fresh", None),
        ("after a kill", killed),
        ("again", done),
        ("first version, after a kill", aged_folder(sweep, killed)),
        ("first version, again", aged_folder(sweep, done)),
    )
    for title, like in folders:
        building = Building(sweep, text, like)

        def job(number):
            folder = sweep.folder(like)
            before = olds(folder)
            busy = f"file {os.path.join(folder, 'cfarm.lock')}\n".encode()
            words = building.words(folder)
            first = started(sweep, words)
            second = started(sweep, [*words, "--turns", str(10000 + number)])
            answers = [answer_of(first), answer_of(second)]
            refused = [it for it in answers if it.status == 2 and it.err == busy and not it.out]
            wrong = [shown(it) for it in answers if it not in refused and it.status != 0]
            wrong += [] if len(refused) < 2 else ["both are refused"]
            for it in answers:
                wrong += building.report(folder, it) if it.status == 0 else []
            wrong += old_faults(folder, before)
            wrong += building.again(folder, content(os.path.join(folder, "linked.cfp")))
            sweep.leave(folder)
            return "one refused" if refused else "both done", [f"pair {number}: {one}" for one in wrong]

        if sweep.wants(f"pairs, {title}"):
            sweep.try_all(f"pairs, {title}", range(8 if sweep.given.quick else 70), job)


# Examples.


SIZES = [f"--nodes {nodes}" for nodes in range(2, 8)] + [
    "--nodes 4 --promise 3 --accept 2",
    "--nodes 4 --promise 2 --accept 3",
    "--nodes 5 --promise 5 --accept 1",
    "--nodes 7 --promise 2 --accept 6",
]


def try_examples(sweep):
    folder = os.path.join(ROOT, "examples")
    for name in sorted(file for file in os.listdir(folder) if file.endswith(".c")):
        text = os.path.join(folder, name)
        building = Building(sweep, text)
        pairs = [(sizes, seed) for sizes in SIZES for seed in (1, 2)][:: 6 if sweep.given.quick else 1]

        def job(number):
            sizes, seed = pairs[number]
            made = sweep.folder()
            answer = sweep.run(["build", text, *sizes.split(), "--seed", str(seed), "--dir", made])
            wrong = building.report(made, answer) if answer.status == 0 else [shown(answer)]
            sweep.leave(made)
            return name_of(answer), [f"{sizes} --seed {seed}: {one}" for one in wrong]

        if sweep.wants(f"examples, {name}"):
            sweep.try_all(f"examples, {name}", range(len(pairs)), job)


PARTS = {
    "examples": try_examples,
    "files": try_files,
    "terminals": try_terminals,
    "kills": try_kills,
    "pairs": try_pairs,
    "threads": try_threads,
    "memory": try_memory,
    "calls": try_calls,
    "journals": try_journals,
}


def show(sweep):
    """Prints the table; one row for all ways in which a command's calls fail."""
    table, slowest = {}, {}
    for row, answers in sweep.rows.items():
        for title in (row.rsplit(", ", 1)[0] if row.startswith(WAYED) else row, "all"):
            table.setdefault(title, collections.Counter()).update(answers)
            slowest[title] = max(slowest.get(title, 0), sweep.slowest.get(row, 0))
    table["all"] = table.pop("all", collections.Counter())
    for title, answers in table.items():
        told = ", ".join(f"{name} {count}" for name, count in answers.most_common())
        print(f"{title:32}{sum(answers.values()):7} {slowest.get(title, 0):6.1f} s  {told}")
    print(f"wrong: {len(sweep.wrong) or 'nothing'}")
    for one in sweep.wrong:
        print(f"  {one}")


def main():
    ask = argparse.ArgumentParser(description=__doc__, formatter_class=argparse.RawDescriptionHelpFormatter)
    ask.add_argument("parts", nargs="*", metavar="PART")
    ask.add_argument("--program", default=os.path.join(ROOT, "crates", "cfarm", "out", "cfarm"))
    ask.add_argument("--quick", action="store_true")
    ask.add_argument("--jobs", type=int, default=4)
    ask.add_argument("--most", type=int, default=1_000_000)
    ask.add_argument("--times", type=int, default=130, help="in how many directories builds are killed at random moments")
    ask.add_argument("--row", default="", help="only the rows of the table with this in their names")
    ask.add_argument("--at", type=int, default=0, help="only the fault of this number")
    ask.add_argument("--keep", action="store_true")
    ask.add_argument("--folder", help="what is built stands below this folder")
    given = ask.parse_args()
    if not os.path.exists(given.program):
        sys.exit("build the program first: ./cfarm --help")
    for part in given.parts:
        if part not in PARTS:
            sys.exit(f"{part}: the parts are {', '.join(PARTS)}")
    scratch = tempfile.mkdtemp(prefix="hostile", dir=given.folder)
    os.chmod(scratch, 0o755)
    try:
        sweep = Sweep(given, scratch)
        for part in given.parts or PARTS:
            PARTS[part](sweep)
        tell("")
        show(sweep)
    finally:
        if given.keep:
            print(f"kept: {scratch}")
        else:
            shutil.rmtree(scratch, ignore_errors=True)
    return 1 if sweep.wrong else 0


if __name__ == "__main__":
    sys.exit(main())
