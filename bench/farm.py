#!/usr/bin/env python3
"""Farms of compiler nodes beside one node's chain of optimisers and checks, by the program `farmed`.

    bench/farm.py              lays out crates/farmed, proves it and builds it
    bench/farm.py --remove     takes it out again
    bench/farm.py --beside     10,000 statements in functions of 1,000: one node's chain, farms of three and seven nodes on disks in
                               memory and on files, all in one process, one behind the other, as often as --runs says
    bench/farm.py --turns      one function of 2,000 statements to 16,000, three nodes in memory on one thread: how long the turns take
    bench/farm.py --large      one function of 60,000 statements, on disks in memory and on files

The texts are those of bench/compile.py. Where one thread takes all turns, the clock tells what the processor does, unless other work is
done beside; files wait for their device. It is no part of the gate, so it stands as a patch, bench/farm.patch, and is proved whenever it
is used. Remove it before anything is committed."""
import argparse
import os
import re
import statistics
import subprocess
import sys
import tempfile

from laid_out import LaidOut, ROOT

LAID = LaidOut(
    "bench/farm.patch",
    "farmed may_wait=8: chains farm_nodes durable_pair_files durable_pair_memory durable_pair durable_model parallel_validate oracle_const oracle_cse oracle_alloc"
    " oracle_order offers rtl_language linear_language lang_base rand_pcg\n",
)
PROGRAM = LAID.program


def texts():
    """The maker of texts of bench/compile.py, which is not run."""
    with open(os.path.join(ROOT, "bench", "compile.py"), encoding="utf-8") as file:
        code = file.read().removesuffix("main()\n")
    names = {"__name__": "compile", "__file__": os.path.join(ROOT, "bench", "compile.py")}
    exec(compile(code, "compile.py", "exec"), names)  # pylint: disable=exec-used
    return names["source"]


def large(statements):
    """One function of so many statements, each of one node."""
    lines = ["int main(void)", "{", "    unsigned left = 1u;", "    unsigned right = 2u;"]
    for number in range(statements - 4):
        lines.append("    left = right;" if number % 2 else "    right = left;")
    return "\n".join(lines + ["    return (int)(left & 127u);", "}", ""])


def told(program, path, jobs):
    """What each job tells: names and numbers."""
    ran = subprocess.run([program, path, *jobs], capture_output=True, check=False)
    if ran.returncode != 0:
        sys.exit(f"{jobs}: status {ran.returncode}: {ran.stderr.decode(errors='replace').strip()}")
    lines = [line for line in ran.stderr.decode().splitlines() if line]
    return lines


def numbers(line):
    return {name: int(number) for name, number in re.findall(r"([a-z]+) (\d+)", line)}


def peak(words):
    """Peak megabytes of a run, read by a child that does nothing else."""
    reader = (
        "import resource, subprocess, sys\n"
        "subprocess.run(sys.argv[1:], stderr=subprocess.DEVNULL, check=True)\n"
        "print(resource.getrusage(resource.RUSAGE_CHILDREN).ru_maxrss)\n"
    )
    done = subprocess.run([sys.executable, "-c", reader, *words], stdout=subprocess.PIPE, check=True)
    return int(done.stdout) / 1024


def whole(found):
    return sum(found[name] for name in ("open", "run", "meet", "link"))


def beside(program, runs, statements, each):
    """Ratios of farms to a chain, each to the chain just before it."""
    kinds = ["memory 3 1", "memory 3 3", "memory 7 1", "memory 7 7", "files 3 3", "files 7 7"]
    found = {kind: [] for kind in kinds}
    chains = []
    with tempfile.TemporaryDirectory(dir=ROOT) as room:
        path = os.path.join(room, "text.c")
        with open(path, "w", encoding="utf-8") as file:
            file.write(texts()(statements, each))
        for seed in range(1, runs + 1):
            jobs = []
            for kind in kinds:
                words = f"{kind} {seed}"
                if kind.startswith("files"):
                    folder = os.path.join(room, f"{kind[6]}-{seed}")
                    os.mkdir(folder)
                    words = f"{words} {folder}"
                jobs += ["chain", words]
            lines = told(program, path, jobs)
            for kind, chain, farm in zip(kinds, lines[::2], lines[1::2]):
                chains.append(numbers(chain))
                found[kind].append((numbers(chain), numbers(farm)))
    middle = {name: statistics.median(one[name] for one in chains) / 1e6 for name in ("text", "passes", "link")}
    print(f"one chain: text {middle['text']:.3f} s, passes {middle['passes']:.3f}, link {middle['link']:.3f}")
    print(f"{'nodes, threads':16} {'open s':>8} {'turns s':>8} {'meet s':>8} {'link s':>8} {'turns':>7} {'/ passes':>9} {'whole':>7}")
    for kind, pairs in found.items():
        one = {name: statistics.median(farm[name] for _, farm in pairs) for name in ("open", "run", "meet", "link", "turns")}
        turns = statistics.median(farm["run"] / chain["passes"] for chain, farm in pairs)
        all_of = statistics.median(
            whole(farm) / (chain["text"] + chain["passes"] + chain["link"]) for chain, farm in pairs
        )
        print(f"{kind:16} {one['open'] / 1e6:8.3f} {one['run'] / 1e6:8.3f} {one['meet'] / 1e6:8.3f} {one['link'] / 1e6:8.3f}"
              f" {one['turns']:7.0f} {turns:9.2f} {all_of:7.2f}")
    seven = statistics.median(
        whole(seven) / whole(three) for (_, seven), (_, three) in zip(found["files 7 7"], found["files 3 3"])
    )
    print(f"seven nodes on files take {seven:.2f} times three nodes")
    return 0


def turns(program, runs):
    """How long turns take in one function of some sizes, all on one thread."""
    print(f"{'statements':>10} {'passes s':>9} {'turns s':>8} {'/ passes':>9} {'longest s':>10} {'growth':>7} {'turns':>6}")
    with tempfile.TemporaryDirectory(dir=ROOT) as room:
        before = None
        for statements in (2_000, 4_000, 8_000, 16_000):
            path = os.path.join(room, "text.c")
            with open(path, "w", encoding="utf-8") as file:
                file.write(texts()(statements, statements))
            pairs = []
            for seed in range(1, runs + 1):
                chain, farm = map(numbers, told(program, path, ["chain", f"memory 3 1 {seed}"]))
                pairs.append((chain, farm))
            one = {name: statistics.median(farm[name] for _, farm in pairs) for name in ("spent", "most", "turns")}
            passes = statistics.median(chain["passes"] for chain, _ in pairs)
            times = statistics.median(farm["spent"] / chain["passes"] for chain, farm in pairs)
            growth = f"{one['spent'] / before:7.2f}" if before else ""
            print(f"{statements:10} {passes / 1e6:9.3f} {one['spent'] / 1e6:8.3f} {times:9.2f} {one['most'] / 1e6:10.3f}"
                  f" {growth:>7} {one['turns']:6.0f}")
            before = one["spent"]
    return 0


def big(program):
    """One function of 60,000 statements."""
    with tempfile.TemporaryDirectory(dir=ROOT) as room:
        path = os.path.join(room, "text.c")
        with open(path, "w", encoding="utf-8") as file:
            file.write(large(60_000))
        for job in ("chain", "memory 3 3 1", f"files 3 3 1 {room}"):
            print(*told(program, path, [job]))
            print(f"{peak([program, path, job]):.0f} MB")
    return 0


def main():
    ask = argparse.ArgumentParser(description=__doc__, formatter_class=argparse.RawDescriptionHelpFormatter)
    ask.add_argument("--remove", action="store_true")
    ask.add_argument("--beside", action="store_true")
    ask.add_argument("--turns", action="store_true")
    ask.add_argument("--large", action="store_true")
    ask.add_argument("--runs", type=int, default=5)
    ask.add_argument("--statements", type=int, default=10_000)
    ask.add_argument("--each", type=int, default=1_000)
    ask.add_argument("--program", default=PROGRAM)
    said = ask.parse_args()
    if said.remove:
        return LAID.remove()
    if said.beside:
        return beside(said.program, said.runs, said.statements, said.each)
    if said.turns:
        return turns(said.program, said.runs)
    return big(said.program) if said.large else LAID.add_built()


if __name__ == "__main__":
    sys.exit(main())
