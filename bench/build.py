#!/usr/bin/env python3
"""Times `cfarm build` with three nodes on a real directory, beside `gcc -O0 -c` on the same text, and counts its syncs.

    bench/build.py                    1,000, 10,000 and 60,000 statements, median of five runs
    bench/build.py --runs 1           one run each
    bench/build.py --statements 1000  so many statements in each function (5,000)
    bench/build.py --nodes 7          so many nodes
    bench/build.py --nodes 7 --promise 6 --accept 2
                                      with other sizes of quorums than more than half
    bench/build.py --folder PATH      the journals stand below this folder (the repository's)

The texts are those of bench/compile.py. In each run a farm builds the text in an empty directory, gcc compiles it, and a farm builds it
again in the same directory, which must leave the same linked.cfp. Seconds are wall-clock seconds of whole processes, so they wait for the
device too. Each call that syncs is counted by a library that is loaded before libc; by the same library a build is timed whose syncs do
nothing, which tells how much of the time is the device's. Each function has four rooms and each room
its records, so the syncs grow with the functions, and not with their size."""
import argparse
import hashlib
import json
import os
import resource
import shutil
import statistics
import struct
import subprocess
import sys
import tempfile
import time

ROOT = os.path.dirname(os.path.dirname(os.path.abspath(__file__)))
SIZES = (1_000, 10_000, 60_000)

SHIM = r"""
#define _GNU_SOURCE
#include <dlfcn.h>
#include <fcntl.h>
#include <stdlib.h>
#include <sys/mman.h>
#include <time.h>
#include <unistd.h>
/* A process may end with no destructor run, so what is counted stands in a file that is mapped: syncs, and their nanoseconds. */
static long none[2], *told = none;
__attribute__((constructor)) static void open_count(void) {
  char *name = getenv("SYNC_COUNT");
  int file = name ? open(name, O_RDWR | O_CREAT | O_TRUNC, 0644) : -1;
  void *made = file < 0 || ftruncate(file, 16) ? MAP_FAILED : mmap(0, 16, PROT_READ | PROT_WRITE, MAP_SHARED, file, 0);
  if (made != MAP_FAILED) told = made;
}
static long now(void) { struct timespec t; clock_gettime(CLOCK_MONOTONIC, &t); return t.tv_sec * 1000000000L + t.tv_nsec; }
#define CALL(name) int name(int file) { static int (*real)(int); if (!real) real = dlsym(RTLD_NEXT, #name); \
  __atomic_add_fetch(told, 1, __ATOMIC_SEQ_CST); if (getenv("SYNC_NOTHING")) return 0; \
  long from = now(); int done = real(file); __atomic_add_fetch(told + 1, now() - from, __ATOMIC_SEQ_CST); return done; }
CALL(fsync)
CALL(fdatasync)
"""


def texts():
    """The maker of texts of bench/compile.py, which is not run."""
    with open(os.path.join(ROOT, "bench", "compile.py"), encoding="utf-8") as file:
        code = file.read().removesuffix("main()\n")
    names = {"__name__": "compile", "__file__": os.path.join(ROOT, "bench", "compile.py")}
    exec(compile(code, "compile.py", "exec"), names)  # pylint: disable=exec-used
    return names["source"]


def lasted(words, **more):
    """Seconds by the clock, seconds of processors, and what was written."""
    start, before = time.perf_counter(), resource.getrusage(resource.RUSAGE_CHILDREN)
    ran = subprocess.run(words, capture_output=True, check=False, env={**os.environ, **more})
    seconds, after = time.perf_counter() - start, resource.getrusage(resource.RUSAGE_CHILDREN)
    if ran.returncode != 0:
        sys.exit(f"{words}: status {ran.returncode}: {ran.stderr.decode(errors='replace').strip()}")
    return seconds, after.ru_utime + after.ru_stime - before.ru_utime - before.ru_stime, ran.stdout


def peak(words):
    """Peak megabytes of a run, read by a child that does nothing else."""
    reader = (
        "import resource, subprocess, sys\n"
        "subprocess.run(sys.argv[1:], stdout=subprocess.DEVNULL, check=True)\n"
        "print(resource.getrusage(resource.RUSAGE_CHILDREN).ru_maxrss)\n"
    )
    done = subprocess.run([sys.executable, "-c", reader, *words], stdout=subprocess.PIPE, check=True)
    return int(done.stdout) / 1024


def hashed(path):
    with open(path, "rb") as file:
        return hashlib.sha256(file.read()).hexdigest()


class Bench:
    """What is given, and where."""

    def __init__(self, given, scratch):
        self.given = given
        self.folder = os.path.join(scratch, "built")
        self.shim = os.path.join(scratch, "shim.so")
        self.count = os.path.join(scratch, "count")
        with open(os.path.join(scratch, "shim.c"), "w", encoding="utf-8") as file:
            file.write(SHIM)
        subprocess.run(
            ["gcc", "-O2", "-shared", "-fPIC", "-w", "-o", self.shim, os.path.join(scratch, "shim.c"), "-ldl"], check=True
        )

    def words(self, path):
        sizes = [(word, getattr(self.given, word)) for word in ("promise", "accept")]
        quorums = [text for word, size in sizes if size is not None for text in (f"--{word}", str(size))]
        nodes = ["--nodes", str(self.given.nodes), *quorums]
        return [self.given.program, "build", path, *nodes, "--turns", "1000000", "--dir", self.folder]

    def empty(self):
        shutil.rmtree(self.folder, ignore_errors=True)
        os.mkdir(self.folder)

    def build(self, path, **more):
        """A build as it is, and the hash of what it linked."""
        seconds, processors, out = lasted(self.words(path), **more)
        report, found = json.loads(out), hashed(os.path.join(self.folder, "linked.cfp"))
        if report["linked"] != found or report["nodes"] != self.given.nodes:
            sys.exit(f"{path}: the report tells {report['linked']}, and {found} was linked")
        return seconds, processors, found

    def once(self, path):
        """One run of everything, by names."""
        told = {}
        self.empty()
        told["build"], told["its processors"], first = self.build(path)
        told["gcc -O0"], told["gcc's processors"], _ = lasted(["gcc", "-O0", "-w", "-c", path, "-o", os.devnull])
        told["built again"], _, second = self.build(path)
        if first != second:
            sys.exit(f"{path}: what was linked is not linked again")
        told["journals MB"] = sum(os.path.getsize(os.path.join(self.folder, name)) for name in os.listdir(self.folder)) / 1e6
        self.empty()
        self.build(path, LD_PRELOAD=self.shim, SYNC_COUNT=self.count)
        with open(self.count, "rb") as file:
            syncs, nanos = struct.unpack("ll", file.read())
        told["syncs"], told["one sync ms"] = syncs, nanos / max(syncs, 1) / 1e6
        self.empty()
        told["without syncs"], _, _ = self.build(path, LD_PRELOAD=self.shim, SYNC_NOTHING="1")
        return told


def growth(values):
    return "  ".join(f"{b / a:5.1f}" if a else "    -" for a, b in zip(values, values[1:]))


def main():
    words = argparse.ArgumentParser(description=__doc__, formatter_class=argparse.RawDescriptionHelpFormatter)
    words.add_argument("--runs", type=int, default=5)
    words.add_argument("--statements", type=int, default=5000)
    words.add_argument("--nodes", type=int, default=3, choices=range(2, 8))
    words.add_argument("--promise", type=int)
    words.add_argument("--accept", type=int)
    words.add_argument("--folder", default=ROOT)
    words.add_argument("--program", default=os.path.join(ROOT, "crates/cfarm/out/cfarm"))
    given = words.parse_args()
    if not os.path.exists(given.program):
        sys.exit("build the program first: ./cfarm --help")
    source, found = texts(), []
    with tempfile.TemporaryDirectory(dir=given.folder) as scratch:
        bench = Bench(given, scratch)
        for size in SIZES:
            path = os.path.join(scratch, f"{size}.c")
            with open(path, "w", encoding="utf-8") as file:
                file.write(source(size, given.statements))
            runs = [bench.once(path) for _ in range(given.runs)]
            found.append({name: statistics.median(one[name] for one in runs) for name in runs[0]})
            found[-1]["times gcc"] = statistics.median(one["build"] / one["gcc -O0"] for one in runs)
            found[-1]["processors' times"] = statistics.median(
                one["its processors"] / one["gcc's processors"] for one in runs
            )
            bench.empty()
            found[-1]["peak MB"] = peak(bench.words(path))
    print(f"{'medians':18}" + "".join(f"{size:11}" for size in SIZES) + "  growth")
    for name in found[0]:
        values = [one[name] for one in found]
        print(f"{name:18}" + "".join(f"{one:11.3f}" for one in values), "", growth(values))


if __name__ == "__main__":
    main()
