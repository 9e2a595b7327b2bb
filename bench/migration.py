#!/usr/bin/env python3
"""Times the migration of a journal of the first version beside opening a new journal of the same records, and counts what a pair of
files costs when it is opened.

    bench/migration.py                 journals of 25, 50 and 100 MB, median of three runs
    bench/migration.py --runs 1        one run each
    bench/migration.py --sizes 10      so many megabytes
    bench/migration.py --program PATH  this program
    bench/migration.py --folder PATH   the journals stand below this folder (the repository's)

The text has 64 functions, so 256 rooms. The journal of node 0 of three is filled in two ways: with ballots that this node started and
promised, 20 bytes for two records; and with one offer a room, which is none that a pass accepts, so the build is refused behind the
migration, as it is behind opening. Each is opened by `build --turns 0`; what such a build takes over empty journals is taken off the
seconds. A journal that was migrated is compared with what it must become (tests/outside/aged.py).

The second table counts, by strace, the syncs and reads of the files of three nodes, and the bytes read of them: over new journals alone,
and over the same with spent old ones beside, of each of which one byte is read.

Its status is 1 where a bound is missed, and each that is missed is told: a migration takes at most twice the processors' time of opening,
and at most three times the bytes of the journal in memory, both above a build over empty journals; and an old file that counts no more
costs one sync and one read of one byte, and no more calls of the new file.
"""
import argparse
import os
import re
import shutil
import statistics
import subprocess
import sys
import tempfile

ROOT = os.path.dirname(os.path.dirname(os.path.realpath(__file__)))
sys.path.append(os.path.join(ROOT, "tests", "outside"))
import aged

TEXT = "".join(f"int f{n}(void){{return {n};}}\n" for n in range(63)) + "int main(void){return 0;}\n"
ROOMS, OWN = 256, 21_845

MEASURED = """
import resource, subprocess, sys, time
start = time.perf_counter()
status = subprocess.run(sys.argv[1:], stdout=subprocess.DEVNULL, stderr=subprocess.DEVNULL, check=False).returncode
seconds, used = time.perf_counter() - start, resource.getrusage(resource.RUSAGE_CHILDREN)
print(seconds, used.ru_utime + used.ru_stime, used.ru_maxrss / 1024, status)
"""


def ballots(size):
    """Blocks of so many bytes: in each room, ballots of node 0 of three that it starts and promises."""
    count = size // (20 * ROOMS)
    if count > OWN:
        sys.exit(f"at most {20 * ROOMS * OWN // 1_000_000} MB are of ballots")
    one = bytearray(b"".join(aged.block(bytes([code, 0, 0]) + (3 * it).to_bytes(2, "big")) for it in range(1, count + 1) for code in (2, 4)))
    for room in range(ROOMS):
        one[6::10] = bytes([room >> 8]) * (2 * count)
        one[7::10] = bytes([room & 255]) * (2 * count)
        yield bytes(one)


def offers(size):
    """Blocks of so many bytes: one offer a room."""
    for room in range(ROOMS):
        yield aged.block(bytes([1, 0, room]) + b"\0" * (size // ROOMS - 8))


class Bench:
    """What is given, and where."""

    def __init__(self, given, scratch):
        self.given, self.text = given, os.path.join(scratch, "text.c")
        with open(self.text, "w", encoding="utf-8") as file:
            file.write(TEXT)
        self.empty = os.path.join(scratch, "empty")
        os.mkdir(self.empty)
        self.measured(self.empty)
        self.header = aged.header_of(aged.read(aged.new_in(self.empty, 0)))

    def words(self, folder):
        return [self.given.program, "build", self.text, "--turns", "0", "--dir", folder]

    def measured(self, folder):
        """Seconds by the clock and of processors, peak megabytes and status of a build without turns."""
        done = subprocess.run([sys.executable, "-c", MEASURED, *self.words(folder)], stdout=subprocess.PIPE, check=True)
        *numbers, status = done.stdout.split()
        return *map(float, numbers), int(status)

    def folder(self, journal, is_old):
        """A folder of empty journals, with this one for node 0."""
        made = tempfile.mkdtemp(dir=os.path.dirname(self.text))
        shutil.copytree(self.empty, made, dirs_exist_ok=True)
        if is_old:
            os.remove(aged.new_in(made, 0))
        shutil.copyfile(journal, aged.old_in(made, 0) if is_old else aged.new_in(made, 0))
        return made

    def medians(self, journal, is_old):
        """The medians of what is measured over such folders, and the last folder."""
        found, folder = [], None
        for _ in range(self.given.runs):
            if folder:
                shutil.rmtree(folder)
            folder = self.folder(journal, is_old)
            found.append(self.measured(folder))
        if {it[3] for it in found} - {3, 4}:
            sys.exit(f"{folder}: a build without turns ends with {found}")
        return *(statistics.median(it[at] for it in found) for at in range(3)), folder

    def journals(self, blocks, size):
        """A new and an old journal of these blocks, in files."""
        nodes, promise, accept, node, digest = self.header
        found = []
        for name, head in (("new", b"CFJ2" + bytes([nodes, promise, accept, node]) + digest), ("old", aged.old_head(*self.header))):
            found.append(os.path.join(os.path.dirname(self.text), name))
            with open(found[-1], "wb") as file:
                file.write(head)
                file.writelines(blocks(size))
                file.write(b"\0")
        return found

    def row(self, blocks, size):
        """What opening takes, migrating, and opening behind it, above a build over empty journals."""
        new, old = self.journals(blocks, size)
        empty = self.medians(aged.new_in(self.empty, 0), False)
        opened, migrated = self.medians(new, False), self.medians(old, True)
        folder = migrated[3]
        if aged.read(aged.old_in(folder, 0)) != aged.spent(aged.read(old)):
            sys.exit(f"{folder}: the old journal is not spent")
        if aged.read(aged.new_in(folder, 0)) != aged.migrated(self.header, aged.read(old)):
            sys.exit(f"{folder}: the new journal is another")
        again = self.measured(folder)
        for it in (empty, opened, migrated):
            shutil.rmtree(it[3])
        return [[one - other for one, other in zip(it[:3], empty)] for it in (opened, migrated, again)]

    def calls(self, folder):
        """How many syncs, reads and bytes read there were of the new and of the old journals."""
        told = os.path.join(os.path.dirname(self.text), "told")
        traced = ["strace", "-f", "-y", "-o", told, "-e", "trace=fsync,fdatasync,read,pread64,preadv,readv"]
        subprocess.run([*traced, *self.words(folder)], capture_output=True, check=False)
        found = {kind: [0, 0, 0] for kind in ("cf2", "cfj")}
        for line in open(told, encoding="utf-8", errors="replace"):
            called = re.search(r"(\w+)\(\d+<[^>]*/node\d\.(cf2|cfj)>.* = (\d+)", line)
            if called:
                row, is_read = found[called[2]], "read" in called[1]
                row[1 if is_read else 0] += 1
                row[2] += int(called[3]) if is_read else 0
        return found


def show_speed(bench, given):
    """The first table; what is missed of its bounds."""
    print(f"{'':20}{'seconds: open':>14}{'migrate':>9}{'again':>8}{'of processors':>15}{'migrate':>9}{'times':>7}{'MB: open':>10}{'migrate':>9}{'again':>7}{'of its size':>13}")
    missed = []
    for title, blocks in (("ballots", ballots), ("offers", offers)):
        for size in given.sizes:
            opened, migrated, again = bench.row(blocks, int(size * 1e6))
            name, times, memory = f"{size:g} MB of {title}", migrated[1] / opened[1], migrated[2] * 2**20 / (size * 1e6)
            print(
                f"{name:20}{opened[0]:14.3f}{migrated[0]:9.3f}{again[0]:8.3f}{opened[1]:15.3f}{migrated[1]:9.3f}{times:7.2f}"
                f"{opened[2]:10.0f}{migrated[2]:9.0f}{again[2]:7.0f}{memory:13.2f}",
                flush=True,
            )
            for most, found, what in ((2, times, "the time of opening"), (3, memory, "its bytes in memory")):
                if found > most:
                    missed.append(f"{name}: migrating takes {found:.2f} times {what}, and not {most} at most")
    return missed


def show_calls(bench):
    """The second table; what is missed of its bounds."""
    folder = bench.folder(aged.new_in(bench.empty, 0), False)
    alone = bench.calls(folder)
    for node in range(3):
        aged_bytes = aged.spent(aged.aged(aged.read(aged.new_in(folder, node))))
        with open(aged.old_in(folder, node), "wb") as file:
            file.write(aged_bytes)
    beside = bench.calls(folder)
    print(f"{'three nodes':26}{'syncs':>9}{'reads':>11}{'bytes':>7}")
    missed = []
    for title, found, most in (
        ("new alone", alone, {"cf2": alone["cf2"], "cfj": [0, 0, 0]}),
        ("new and spent", beside, {"cf2": alone["cf2"], "cfj": [3, 3, 3]}),
    ):
        for kind in ("cf2", "cfj"):
            print(f"{f'{title}, .{kind}':26}{found[kind][0]:9}{found[kind][1]:11}{found[kind][2]:7}")
            if any(a > b for a, b in zip(found[kind], most[kind])):
                missed.append(f"{title}, .{kind}: more than {most[kind]}")
    return missed


def main():
    words = argparse.ArgumentParser(description=__doc__, formatter_class=argparse.RawDescriptionHelpFormatter)
    words.add_argument("--runs", type=int, default=3)
    words.add_argument("--sizes", type=float, nargs="+", default=[25, 50, 100])
    words.add_argument("--folder", default=ROOT)
    words.add_argument("--program", default=os.path.join(ROOT, "crates/cfarm/out/cfarm"))
    given = words.parse_args()
    if not os.path.exists(given.program):
        sys.exit("build the program first: ./cfarm --help")
    with tempfile.TemporaryDirectory(dir=given.folder) as scratch:
        bench = Bench(given, scratch)
        missed = show_speed(bench, given)
        if shutil.which("strace"):
            missed += show_calls(bench)
    for it in missed:
        print(f"missed: {it}")
    return 1 if missed else 0


if __name__ == "__main__":
    sys.exit(main())
