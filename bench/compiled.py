#!/usr/bin/env python3
"""Times C programs as `cfarm build` makes them and `cfarm exec` runs them, beside the same work in Lua, Python and by gcc.

    bench/compiled.py              the lowest of five runs of each, the kinds of run by turns: other work only adds
    bench/compiled.py --runs 1     one run of each
    bench/compiled.py --only sieve one program alone
    bench/compiled.py --nodes 7    farms of seven nodes, not three
    bench/compiled.py --add        adds crates/linked to the tree, which links a text by the baselines and counts what passes accept
    bench/compiled.py --accepted   how many proposals of the optimisers that try for speed are accepted, of the programs and examples
    bench/compiled.py --remove     takes that crate out again

The programs: Fibonacci's number 30 by recursion, thirty sieves of 65,536, Collatz's sequences below 150,000, and two that
print: primes, and the steps of a tower. Each is built with the seeds 1 to 12 and each way of optimising, and shown are the best
seed, the median and the worst; beside them what nodes link that are all given the offers of examples/optimisers/tidy.py,
`cfarm interpret`, Lua 5.4 where the machine has one, Python 3, and gcc with -O0 and -O2, and, where `linked` is built, the
baselines. What each prints is compared. A ratio is a kind's time by Lua's, or by Python's where there is no Lua; the time is a
process's own, of user and system, its start among it.

`linked` is no part of the gate, so it stands as a patch, bench/compiled.patch. Remove it before anything is committed."""
import argparse
import os
import shutil
import statistics
import subprocess
import sys
import tempfile

from laid_out import LaidOut, ROOT

CFARM = os.path.join(ROOT, "crates", "cfarm", "out", "cfarm")
LAID = LaidOut(
    "bench/compiled.patch",
    "linked: chains_made farm_nodes farm_nodes_source linker offers linearize_check alloc_check cse_check "
    "constprop_check rtl_language linear_language lang lang_base anyhow rand_pcg\n",
)
LINKED = LAID.program
LIMIT = str(2**63 - 1)
SEEDS = range(1, 13)
WAYS = ("speed", "drawn")
EXAMPLES = os.path.join(ROOT, "examples")
TIDY = os.path.join(EXAMPLES, "optimisers", "tidy.py")

PRINTING = """int putchar(int);
void number(unsigned n) { if (n > 9u) number(n / 10u); putchar((int)(48u + n % 10u)); }
"""

PROGRAMS = {
    "fib": (
        "int fib(int n) { int a; int b; if (n < 2) return n; a = fib(n - 1); b = fib(n - 2); return a + b; }\n"
        "int main(void) { int n; n = fib(30); number((unsigned)n); putchar(10); return 0; }\n",
        "local function fib(n) if n < 2 then return n end local a = fib(n - 1) local b = fib(n - 2) return a + b end\nprint(fib(30))\n",
        "def fib(n):\n    if n < 2:\n        return n\n    a = fib(n - 1)\n    b = fib(n - 2)\n    return a + b\nprint(fib(30))\n",
    ),
    "sieve": (
        "int c[65536];\nint main(void) {\n    int n = 0;\n    for (int t = 0; t < 30; t = t + 1) {\n        n = 0;\n"
        "        for (int i = 0; i < 65536; i = i + 1) c[i] = 0;\n        for (int i = 2; i < 65536; i = i + 1)\n"
        "            if (c[i] == 0) { n = n + 1; for (int j = i + i; j < 65536; j = j + i) c[j] = 1; }\n    }\n"
        "    number((unsigned)n); putchar(10);\n    return 0;\n}\n",
        "local c, n = {}, 0\nfor t = 1, 30 do\n    n = 0\n    for i = 0, 65535 do c[i] = 0 end\n    for i = 2, 65535 do\n        if c[i] == 0 then\n"
        "            n = n + 1\n            local j = i + i\n            while j < 65536 do c[j] = 1; j = j + i end\n        end\n    end\nend\nprint(n)\n",
        "def main():\n    c = [0] * 65536\n    for t in range(30):\n        n = 0\n        for i in range(65536):\n            c[i] = 0\n"
        "        for i in range(2, 65536):\n            if c[i] == 0:\n                n = n + 1\n                j = i + i\n"
        "                while j < 65536:\n                    c[j] = 1\n                    j = j + i\n    print(n)\nmain()\n",
    ),
    "collatz": (
        "int main(void) {\n    unsigned best = 0u; unsigned at = 0u;\n    for (unsigned i = 1u; i < 150000u; i = i + 1u) {\n"
        "        unsigned n = i; unsigned k = 0u;\n"
        "        while (n != 1u) { if (n % 2u == 0u) n = n / 2u; else n = 3u * n + 1u; k = k + 1u; }\n"
        "        if (k > best) { best = k; at = i; }\n    }\n    number(at); putchar(10);\n    return 0;\n}\n",
        "local best, at, i = 0, 0, 1\nwhile i < 150000 do\n    local n, k = i, 0\n"
        "    while n ~= 1 do if n % 2 == 0 then n = n // 2 else n = 3 * n + 1 end k = k + 1 end\n"
        "    if k > best then best = k at = i end\n    i = i + 1\nend\nprint(at)\n",
        "def main():\n    best = at = 0\n    i = 1\n    while i < 150000:\n        n = i\n        k = 0\n        while n != 1:\n"
        "            if n % 2 == 0:\n                n = n // 2\n            else:\n                n = 3 * n + 1\n            k = k + 1\n"
        "        if k > best:\n            best = k\n            at = i\n        i = i + 1\n    print(at)\nmain()\n",
    ),
    "primes": (
        "int main(void) {\n    for (unsigned n = 2u; n < 100000u; n = n + 1u) {\n        unsigned d = 2u;\n"
        "        while (d * d <= n && n % d != 0u) d = d + 1u;\n        if (d * d > n) { number(n); putchar(10); }\n    }\n    return 0;\n}\n",
        "for n = 2, 99999 do\n    local d = 2\n    while d * d <= n and n % d ~= 0 do d = d + 1 end\n    if d * d > n then io.write(n, '\\n') end\nend\n",
        "import sys\ndef main():\n    for n in range(2, 100000):\n        d = 2\n        while d * d <= n and n % d != 0:\n            d = d + 1\n"
        "        if d * d > n:\n            sys.stdout.write(str(n) + '\\n')\nmain()\n",
    ),
    "tower": (
        "void move(int disks, int from, int to) {\n    int by;\n    if (disks == 0) return;\n    by = 3 - from - to;\n"
        "    move(disks - 1, from, by);\n    putchar(48 + from); putchar(48 + to); putchar(10);\n    move(disks - 1, by, to);\n}\n"
        "int main(void) { move(18, 0, 2); return 0; }\n",
        "local function move(disks, from, to)\n    if disks == 0 then return end\n    local by = 3 - from - to\n    move(disks - 1, from, by)\n"
        "    io.write(from, to, '\\n')\n    move(disks - 1, by, to)\nend\nmove(18, 0, 2)\n",
        "import sys\ndef move(disks, at, to):\n    if disks == 0:\n        return\n    by = 3 - at - to\n    move(disks - 1, at, by)\n"
        "    sys.stdout.write(str(at) + str(to) + '\\n')\n    move(disks - 1, by, to)\nmove(18, 0, 2)\n",
    ),
}


def write(folder, name, text):
    path = os.path.join(folder, name)
    with open(path, "w", encoding="utf-8") as file:
        file.write(text)
    return path


def built(folder, name, text, way, seed, given):
    """The linked program of a build."""
    place = os.path.join(folder, f"{name}.{way}.{seed}")
    os.mkdir(place)
    words = ["build", text, "--dir", place, "--nodes", str(given.nodes), "--seed", str(seed), "--optimise", way]
    subprocess.run([given.cfarm, *words], stdin=subprocess.DEVNULL, stdout=subprocess.DEVNULL, check=True)
    return os.path.join(place, "linked.cfp")


def built_outside(folder, name, text, given):
    """The linked program of a build whose nodes are all given what the optimiser from outside offers."""
    place = os.path.join(folder, f"{name}.tidy")
    os.mkdir(place)
    rtl = os.path.join(place, "rtl")
    with open(rtl, "wb") as file:
        subprocess.run([given.cfarm, "emit", text, "--of", "rtl"], stdin=subprocess.DEVNULL, stdout=file, check=True)
    for node in range(given.nodes):
        subprocess.run([sys.executable, TIDY, rtl, os.path.join(place, "offers", f"node{node}")], check=True)
    words = ["build", text, "--dir", place, "--nodes", str(given.nodes), "--offers", os.path.join(place, "offers")]
    done = subprocess.run([given.cfarm, *words], stdin=subprocess.DEVNULL, stdout=subprocess.DEVNULL, stderr=subprocess.PIPE, check=True)
    if done.stderr:
        sys.exit(f"{name}, tidy: {done.stderr.decode()}")
    return os.path.join(place, "linked.cfp")


def commands(folder, name, given):
    """Each kind of run of a program, and the command for it: of a build the kind is the way and the seed."""
    c, lua, python = PROGRAMS[name]
    text = write(folder, f"{name}.c", PRINTING + c)
    found = {"python3": ["python3", write(folder, f"{name}.py", python)]}
    if shutil.which(given.lua):
        found[given.lua] = [given.lua, write(folder, f"{name}.lua", lua)]
    found["interpret"] = [given.cfarm, "interpret", text, "--depth", "4294967295"]
    for level in ("-O0", "-O2"):
        path = os.path.join(folder, name + level)
        subprocess.run(["gcc", level, "-w", "-o", path, text], check=True)
        found[f"gcc {level}"] = [path]
    if os.path.exists(given.linked):
        linked = os.path.join(folder, f"{name}.base")
        with open(linked, "wb") as file:
            subprocess.run([given.linked, "baselines", text], stdout=file, check=True)
        found["exec, baselines"] = [given.cfarm, "exec", linked, "--limit", LIMIT]
    found["exec, tidy"] = [given.cfarm, "exec", built_outside(folder, name, text, given), "--limit", LIMIT]
    for way in WAYS:
        for seed in SEEDS:
            linked = built(folder, name, text, way, seed, given)
            found[(way, seed)] = [given.cfarm, "exec", linked, "--limit", LIMIT]
    return found


def timed(command):
    """A process's own seconds, and what it prints."""
    with tempfile.TemporaryFile() as out:
        process = subprocess.Popen(command, stdin=subprocess.DEVNULL, stdout=out, stderr=subprocess.DEVNULL)
        _, _, used = os.wait4(process.pid, 0)
        process.returncode = 0
        out.seek(0)
        return used.ru_utime + used.ru_stime, out.read()


def show(kind, seconds, by):
    print(f"    {kind:24} {seconds:8.3f} s {seconds / by:8.2f} times", flush=True)


def show_all(name, lowest, given):
    """A program's lines: the builds of a way as the best of the seeds, the median over them, and the worst."""
    reference = given.lua if given.lua in lowest else "python3"
    by = lowest[reference]
    print(f"{name}, by the time of {reference}{'' if reference == given.lua else ' (there is no Lua here)'}")
    for kind, took in lowest.items():
        if isinstance(kind, str):
            show(kind, took, by)
    for way in WAYS:
        seeds = sorted(lowest[(way, seed)] for seed in SEEDS)
        show(f"exec, {way}: best", seeds[0], by)
        show(f"exec, {way}: median", statistics.median(seeds), by)
        show(f"exec, {way}: worst", seeds[-1], by)


def measure(given):
    for name in [given.only] if given.only else PROGRAMS:
        with tempfile.TemporaryDirectory() as folder:
            kinds = commands(folder, name, given)
            seconds = {kind: [] for kind in kinds}
            printed = {}
            for _ in range(given.runs):
                for kind, command in kinds.items():
                    took, printed[kind] = timed(command)
                    seconds[kind].append(took)
        other = [kind for kind in kinds if printed[kind] != printed["python3"]]
        if other:
            sys.exit(f"{name}: {other} print something else than Python")
        show_all(name, {kind: min(took) for kind, took in seconds.items()}, given)
    return 0


def accepted(given):
    """Tells of each text how many proposals there are and how many are accepted, and of all."""
    counts = []
    with tempfile.TemporaryDirectory() as folder:
        texts = [write(folder, f"{name}.c", PRINTING + c) for name, (c, _, _) in PROGRAMS.items()]
        texts += sorted(os.path.join(EXAMPLES, name) for name in os.listdir(EXAMPLES) if name.endswith(".c"))
        for text in texts + given.text:
            done = subprocess.run([given.linked, "accepted", text], stdout=subprocess.PIPE, check=True)
            counts.append([int(number) for number in done.stdout.split()])
            print(f"{os.path.basename(text):24} {counts[-1][0]} of {counts[-1][1]}", flush=True)
    some, whole = (sum(column) for column in zip(*counts))
    print(f"accepted: {some} of {whole}, {100 * some / whole:.2f} of a hundred")
    return 0


def main():
    words = argparse.ArgumentParser(description=__doc__.splitlines()[0])
    words.add_argument("--add", action="store_true")
    words.add_argument("--remove", action="store_true")
    words.add_argument("--accepted", action="store_true")
    words.add_argument("--text", action="append", default=[], help="one more text of which proposals are counted")
    words.add_argument("--runs", type=int, default=5)
    words.add_argument("--nodes", type=int, default=3)
    words.add_argument("--only", choices=PROGRAMS)
    words.add_argument("--cfarm", default=CFARM)
    words.add_argument("--linked", default=LINKED)
    words.add_argument("--lua", default="lua5.4")
    given = words.parse_args()
    if given.add or given.remove:
        return LAID.add_built() if given.add else LAID.remove()
    return accepted(given) if given.accepted else measure(given)


if __name__ == "__main__":
    sys.exit(main())
