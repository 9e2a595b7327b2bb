#!/usr/bin/env python3
"""Times `cfarm interpret` beside Lua 5.4 and Python 3 on the same programs.

    bench/programs.py           median of five runs of each
    bench/programs.py --runs 3

The programs: a counting loop, a sieve, Fibonacci's numbers by recursion. Each run is a whole process, and its result
is compared. A ratio is Lua's time, or Python's, by that of `cfarm`.
"""
import argparse
import os
import statistics
import subprocess
import tempfile
import time

ROOT = os.path.dirname(os.path.dirname(os.path.abspath(__file__)))
CFARM = os.path.join(ROOT, "crates", "cfarm", "out", "cfarm")

PROGRAMS = {
    "count": (
        "int main(void){ int i = 0; int s = 0; while (i < 5000000) { s = (s + i * 7) % 1000003; i = i + 1; } return s; }",
        "local i, s = 0, 0\nwhile i < 5000000 do s = (s + i * 7) % 1000003; i = i + 1 end\nreturn s",
        "i = s = 0\nwhile i < 5000000:\n    s = (s + i * 7) % 1000003\n    i = i + 1\nreturn s",
    ),
    "sieve": (
        "int c[65536]; int main(void){ int n = 0; for (int t = 0; t < 20; t = t + 1) { n = 0; for (int i = 0; i < 65536; i = i + 1) c[i] = 0;"
        " for (int i = 2; i < 65536; i = i + 1) if (c[i] == 0) { n = n + 1; for (int j = i + i; j < 65536; j = j + i) c[j] = 1; } } return n; }",
        "local c, n = {}, 0\nfor t = 1, 20 do\nn = 0\nfor i = 0, 65535 do c[i] = 0 end\nfor i = 2, 65535 do if c[i] == 0 then n = n + 1\n"
        "local j = i + i\nwhile j < 65536 do c[j] = 1; j = j + i end end end end\nreturn n",
        "c = [0] * 65536\nfor t in range(20):\n    n = 0\n    i = 0\n    while i < 65536:\n        c[i] = 0\n        i = i + 1\n    i = 2\n"
        "    while i < 65536:\n        if c[i] == 0:\n            n = n + 1\n            j = i + i\n            while j < 65536:\n                c[j] = 1\n"
        "                j = j + i\n        i = i + 1\nreturn n",
    ),
    "recursion": (
        "int fib(int n){ int a; int b; if (n < 2) return n; a = fib(n - 1); b = fib(n - 2); return a + b; } int main(void){ return fib(29); }",
        "local function fib(n) if n < 2 then return n end local a = fib(n - 1) local b = fib(n - 2) return a + b end\nreturn fib(29)",
        "def fib(n):\n    if n < 2:\n        return n\n    a = fib(n - 1)\n    b = fib(n - 2)\n    return a + b\nreturn fib(29)",
    ),
}


def command(kind, text, folder):
    path = os.path.join(folder, kind)
    if kind == "python":
        text = "def main():\n" + "".join(f"    {line}\n" for line in text.splitlines()) + "print('ended', main())\n"
    if kind == "lua":
        text = "local function main()\n" + text + "\nend\nprint('ended ' .. main())\n"
    with open(path, "w") as file:
        file.write(text)
    return {"c": [CFARM, "interpret", path, "--depth", "4294967295"], "lua": ["lua5.4", path], "python": ["python3", path]}[kind]


def timed(words, runs):
    seconds, told = [], None
    for _ in range(runs):
        start = time.perf_counter()
        run = subprocess.run(words, capture_output=True, text=True)
        seconds.append(time.perf_counter() - start)
        told = (run.stdout + run.stderr).strip()
    return statistics.median(seconds), told


def main():
    words = argparse.ArgumentParser(description="cfarm interpret beside Lua and Python")
    words.add_argument("--runs", type=int, default=5)
    runs = words.parse_args().runs
    print(f"{'program':<10} {'cfarm s':>8} {'lua s':>8} {'python s':>8} {'lua/cfarm':>10} {'python/cfarm':>13}")
    with tempfile.TemporaryDirectory() as folder:
        for name, texts in PROGRAMS.items():
            results = [timed(command(kind, text, folder), runs) for kind, text in zip(("c", "lua", "python"), texts)]
            if len({told for _, told in results}) != 1:
                raise SystemExit(f"{name}: {[told for _, told in results]}")
            (c, _), (lua, _), (python, _) = results
            print(f"{name:<10} {c:>8.2f} {lua:>8.2f} {python:>8.2f} {lua / c:>10.2f} {python / c:>13.2f}")


if __name__ == "__main__":
    main()
