#!/usr/bin/env python3
"""Journals on real files and in memory, by the program `journaled`: kills, failed calls, speed.

    tests/outside/journals.py              lays out crates/journaled, proves it and builds it
    tests/outside/journals.py --remove     takes it out again
    tests/outside/journals.py --kills N    N times over: a program that appends is killed at a random moment; after each kill the
                                           journal must open with what was acknowledged, or with one record more
    tests/outside/journals.py --calls      each call of the system that opens, reads, writes or syncs fails in turn; after each the
                                           journal must open with what was acknowledged, or with one record more
    tests/outside/journals.py --speed      appends in memory and on a file, and opening, beside plain Python and C that do the same

It is no part of the gate, so it stands as a patch, tests/outside/journals.patch, and is proved whenever it is used. Remove it
before anything is committed."""
import argparse
import hashlib
import os
import random
import re
import signal
import statistics
import subprocess
import sys
import tempfile
import time

sys.path.append(os.path.join(os.path.dirname(os.path.realpath(__file__)), os.pardir, os.pardir, "bench"))
from laid_out import LaidOut, ROOT

LAID = LaidOut("tests/outside/journals.patch", "journaled: acceptor_log durable_model lang_base\n")
PROGRAM = LAID.program
HEADER = b"CFJ2\x03\x02\x02\x00" + b"\x07" * 32

SHIM = r"""
#define _GNU_SOURCE
#include <dlfcn.h>
#include <errno.h>
#include <fcntl.h>
#include <stdarg.h>
#include <stdio.h>
#include <stdlib.h>
#include <sys/types.h>
static long seen;
static int due(void) { char *at = getenv("FAIL_AT"); return ++seen == (at ? atol(at) : 0); }
#define CALL(type, name, list, given) type name list { static type (*real) list; \
  if (!real) real = dlsym(RTLD_NEXT, #name); if (due()) { errno = EIO; return -1; } return real given; }
CALL(ssize_t, read, (int f, void *b, size_t n), (f, b, n))
CALL(ssize_t, pread, (int f, void *b, size_t n, off_t o), (f, b, n, o))
CALL(ssize_t, pwrite, (int f, const void *b, size_t n, off_t o), (f, b, n, o))
CALL(ssize_t, pread64, (int f, void *b, size_t n, off_t o), (f, b, n, o))
CALL(ssize_t, pwrite64, (int f, const void *b, size_t n, off_t o), (f, b, n, o))
CALL(int, fsync, (int f), (f))
CALL(int, close, (int f), (f))
#define OPEN(name) int name(const char *p, int flags, ...) { va_list l; va_start(l, flags); int mode = va_arg(l, int); va_end(l); \
  static int (*real)(const char *, int, ...); if (!real) real = dlsym(RTLD_NEXT, #name); \
  if (due()) { errno = EIO; return -1; } return real(p, flags, mode); }
OPEN(open)
OPEN(open64)
__attribute__((destructor)) static void told(void) { char *e = getenv("FAIL_COUNT"); FILE *f = e ? fopen(e, "w") : 0;
  if (f) { fprintf(f, "%ld\n", seen); fclose(f); } }
"""

TWIN = r"""
#include <fcntl.h>
#include <stdio.h>
#include <stdlib.h>
#include <string.h>
#include <time.h>
#include <unistd.h>
/* twin FILE COUNT SIZE: writes, syncs, writes one byte, syncs, as an append does; prints microseconds. */
int main(int argc, char **argv) {
  int file = open(argv[1], O_RDWR), count = atoi(argv[2]), size = atoi(argv[3]) + 8;
  char *block = calloc(size, 1), gate = 1;
  off_t at = lseek(file, 0, SEEK_END) - 1;
  struct timespec a, b;
  clock_gettime(CLOCK_MONOTONIC, &a);
  for (int i = 0; i < count; i++) {
    if (pwrite(file, block, size, at + 1) != size || fsync(file) || pwrite(file, &gate, 1, at) != 1 || fsync(file)) return 1;
    at += size;
  }
  clock_gettime(CLOCK_MONOTONIC, &b);
  printf("%ld\n", (b.tv_sec - a.tv_sec) * 1000000 + (b.tv_nsec - a.tv_nsec) / 1000);
  return argc != 4;
}
"""


def last_told(out):
    """What the program told: whether it made the journal or could list one, and how many records stand at least."""
    words = re.findall(rb"^(listed|acknowledged) (\d+)$", out, flags=re.M)
    listed = next((int(number) for word, number in words if word == b"listed"), None)
    return listed, int(words[-1][1]) if words else None


def kills(number, seed):
    """Appends of many sizes to one journal, each run killed at a random moment."""
    choice = random.Random(seed)
    known, more, late, empty = 0, 0, 0, 0
    with tempfile.TemporaryDirectory(dir=ROOT) as room:
        path = os.path.join(room, "node0.cf2")
        for _ in range(number):
            words = [PROGRAM, "append", path, "100000", str(choice.choice((4, 60, 900, 9000)))]
            ran = subprocess.Popen(words, stdout=subprocess.PIPE, stderr=subprocess.PIPE)
            time.sleep(choice.random() ** 3 * 0.4)
            ran.send_signal(signal.SIGKILL)
            out, told = ran.communicate()
            if told:
                sys.exit(f"refused: {told.decode()}")
            listed, stands = last_told(out)
            if listed is None:
                empty += 1
                continue
            if not known <= listed <= known + 1:
                sys.exit(f"{known} were acknowledged, and {listed} are listed")
            more += listed == known + 1
            late += stands > listed
            known = stands
            if os.path.getsize(path) > 3_000_000:
                os.remove(path)
                known = 0
        out = subprocess.run([PROGRAM, "append", path, "0", "4"], capture_output=True, check=True).stdout
        listed, _ = last_told(out)
        if not known <= listed <= known + 1:
            sys.exit(f"{known} were acknowledged, and {listed} are listed")
    print(f"{number} kills: {late} after an append that was acknowledged, {empty} before the journal was listed,"
          f" {more} left one record more; none left less, and none was refused")
    return 0


def calls():
    """Three appends to no journal and to one, with each call of the system failing in turn."""
    answers = {}
    with tempfile.TemporaryDirectory(dir=ROOT) as room:
        path, shim, count = (os.path.join(room, name) for name in ("node0.cf2", "shim.so", "count"))
        with open(os.path.join(room, "shim.c"), "w", encoding="utf-8") as file:
            file.write(SHIM)
        subprocess.run(["cc", "-O2", "-shared", "-fPIC", "-w", "-o", shim, os.path.join(room, "shim.c"), "-ldl"], check=True)

        def run(added, **more):
            words = [PROGRAM, "append", path, str(added), "20"]
            return subprocess.run(words, capture_output=True, check=False, env={**os.environ, **more})

        for before in (0, 2):
            at, total = 0, 1
            while at <= total:
                if os.path.exists(path):
                    os.remove(path)
                if before:
                    run(before)
                ran = run(3, LD_PRELOAD=shim, FAIL_AT=str(at), FAIL_COUNT=count)
                if at == 0:
                    with open(count, encoding="utf-8") as file:
                        total = int(file.read())
                _, known = last_told(ran.stdout)
                known = before if known is None else known
                listed, _ = last_told(run(0).stdout)
                if ran.returncode < 0 or listed is None or not known <= listed <= known + 1:
                    sys.exit(f"call {at} failed: {ran}, then {listed} are listed")
                answer = ran.stderr.decode().strip() or "no refusal"
                answers[answer] = answers.get(answer, 0) + (at > 0)
                at += 1
    print(f"{sum(answers.values())} failed calls: " + ", ".join(f"{name} {number}" for name, number in sorted(answers.items()))
          + "; each journal opened with what was acknowledged, or with one record more")
    return 0


def timed(*words):
    ran = subprocess.run([PROGRAM, *words], capture_output=True, check=True)
    return {name: int(micros) / 1e6 for name, micros in re.findall(r"(\w+) (\d+)", ran.stderr.decode())}


def lasted(*words):
    start = time.perf_counter()
    timed(*words)
    return time.perf_counter() - start


def journal(count, size):
    """A journal of so many offers of so many bytes, as the program appends them."""
    parts = [HEADER]
    for number in range(count):
        body = b"\x01" + (number % 65536).to_bytes(2, "big") + number.to_bytes(4, "big") + bytes([number % 251]) * (size - 4)
        parts.append(b"\x01" + len(body).to_bytes(4, "big") + body)
    return b"".join(parts) + b"\x00"


def hashed(path):
    start = time.perf_counter()
    with open(path, "rb") as file:
        hashlib.sha256(file.read()).digest()
    return time.perf_counter() - start


def middle(runs, work):
    return statistics.median(work() for _ in range(runs))


def speed(runs):
    print(f"{'append in memory':28} {'s':>8} {'MB/s':>8}")
    for count, size in ((100, 1000), (100, 10_000), (100, 100_000), (100, 1_000_000), (100_000, 100)):
        took = middle(runs, lambda: timed("memory", str(count), str(size))["append"])
        print(f"{f'{count} records of {size} B':28} {took:8.4f} {count * size / took / 1e6:8.0f}")
    with tempfile.TemporaryDirectory(dir=ROOT) as room:
        print(f"{'opening (the process)':28} {'s':>8} {'of it log':>9} {'SHA-256':>8} {'times':>6}")
        for count, size in ((1000, 10_000), (2500, 10_000), (10_000, 10_000), (100_000, 1000), (1_000_000, 100)):
            path = os.path.join(room, "open.cf2")
            with open(path, "wb") as file:
                file.write(journal(count, size))
            plain = middle(runs, lambda: hashed(path))
            log = middle(runs, lambda: timed("time", path, "0", "4")["open"])
            whole = middle(runs, lambda: lasted("time", path, "0", "4"))
            print(f"{f'{count} records of {size} B':28} {whole:8.3f} {log:9.3f} {plain:8.3f} {whole / plain:6.2f}")
        with open(os.path.join(room, "twin.c"), "w", encoding="utf-8") as file:
            file.write(TWIN)
        twin = os.path.join(room, "twin")
        subprocess.run(["cc", "-O2", "-o", twin, f"{twin}.c"], check=True)
        print(f"{'append on a file':28} {'ours s':>8} {'C s':>8} {'times':>6}")
        for count, size in ((300, 100), (300, 10_000)):
            path, ours, theirs = os.path.join(room, "append.cf2"), [], []
            for _ in range(runs):
                for kind in (ours, theirs):
                    with open(path, "wb") as file:
                        file.write(journal(0, 4))
                    if kind is ours:
                        kind.append(timed("time", path, str(count), str(size))["append"])
                    else:
                        told = subprocess.run([twin, path, str(count), str(size)], capture_output=True, check=True)
                        kind.append(int(told.stdout) / 1e6)
            a, b = statistics.median(ours), statistics.median(theirs)
            print(f"{f'{count} records of {size} B':28} {a:8.3f} {b:8.3f} {a / b:6.2f}")
    return 0


def main():
    ask = argparse.ArgumentParser(description=__doc__, formatter_class=argparse.RawDescriptionHelpFormatter)
    ask.add_argument("--remove", action="store_true")
    ask.add_argument("--kills", type=int, metavar="N")
    ask.add_argument("--calls", action="store_true")
    ask.add_argument("--speed", action="store_true")
    ask.add_argument("--runs", type=int, default=5)
    ask.add_argument("--seed", type=int, default=1)
    said = ask.parse_args()
    if said.remove:
        return LAID.remove()
    if said.kills:
        return kills(said.kills, said.seed)
    if said.calls:
        return calls()
    return speed(said.runs) if said.speed else LAID.add_built()


if __name__ == "__main__":
    sys.exit(main())
