#!/usr/bin/env python3
"""Each allocation refused in turn in calls of the libraries, by the program `refused`.

    tests/outside/refused.py                lays out crates/refused, proves it and builds it
    tests/outside/refused.py --remove       takes it out again
    tests/outside/refused.py --sweep        all calls, each allocation refused once, and from then on
    tests/outside/refused.py --sweep read   this call
    tests/outside/refused.py --program PATH this program

The calls are `Farm::open` of three nodes on empty disks, `linked`, which hands the chains that a farm has agreed on to `link`, `restart` of
one of its nodes, `meet` of two of them, in which their seats meet, `append` to a journal, `Offer::read`, `check_all` of eight jobs with two
workers, `offer` of a seat, and every other call of a seat. The program makes the input of a call, which is no part of what is tried; only
what is allocated in the call is refused, and each thread that it makes. An answer is right where it is the one without a fault, or NoMemory;
then the call, made again on what came back, answers what it answers without a fault. It prints a table, then what was wrong, which must be
nothing; its status is 1 where something was. It is no part of the gate, so the program stands as a patch, tests/outside/refused.patch, and is proved
whenever it is used. Remove it before anything is committed."""
import argparse
import os
import subprocess
import sys
import tempfile

import shim

sys.path.append(os.path.join(os.path.dirname(os.path.realpath(__file__)), os.pardir, os.pardir, "bench"))
from laid_out import LaidOut

LAID = LaidOut(
    "tests/outside/refused.patch",
    "refused may_wait=10: farm_nodes farm_nodes_turn_node farm_nodes_turn_passes acceptor_log acceptor_log_form rooms_numbered"
    " rooms_hall rooms_seat rooms rooms_words paxos_core durable_pair_memory durable_model parallel_validate offers linker lang linearize_check linear_language"
    " cminor_program_ranges c_checker_rules lang_base hex rand_pcg\n",
)
PROGRAM = LAID.program
CALLS = ("open", "linked", "restart", "meet", "append", "read", "check_all", "offer", "seat")
MARKS = ("before", "behind")


def ran(given, call, onward, number):
    """What the program tells but its marks, with its status, how often it told a mark, how many allocations there were, and which was
    refused, if one was."""
    told = os.path.join(given.scratch, "told")
    env = {**os.environ, "FAULT_BETWEEN": "1", **shim.variables(given.shim, told, "m", onward, number)}
    try:
        done = subprocess.run([given.program, call], capture_output=True, stdin=subprocess.DEVNULL, env=env, timeout=300, check=False)
    except subprocess.TimeoutExpired:
        return ["does not end"], 0, *shim.seen(told)
    lines = done.stdout.decode(errors="replace").splitlines()
    marks = sum(line in MARKS for line in lines)
    answer = [line for line in lines if line not in MARKS]
    if done.returncode or done.stderr:
        answer.append(f"status {done.returncode} {done.stderr.decode(errors='replace')}")
    return answer, marks, *shim.seen(told)


def judge(answer, wanted):
    """Under which name an answer is counted."""
    if answer == wanted:
        return "same"
    # A node that is refused is stopped.
    refused = {"NoMemory", "NoMemory stopped true"}
    return "no memory" if answer[:1] and answer[0] in refused and answer[1:] == wanted else "wrong"


def sweep(given, call):
    """Refuses each allocation of the call in turn: how often each answer came, and what was wrong."""
    wanted, marks, allocations, _ = ran(given, call, False, 0)
    # Without a fault there is an answer, from between marks.
    if not wanted or marks < 2 or marks % 2 or any("not told" in line or "status" in line for line in wanted):
        return {}, [f"{call}: without a fault {wanted}, {marks} marks"]
    counts, wrong = {"allocations": allocations, "faults": 0, "same": 0, "no memory": 0, "wrong": 0}, []
    for onward in (False, True):
        for number in range(1, given.most):
            answer, also, _, failed = ran(given, call, onward, number)
            name = judge(answer, wanted)
            if not failed:
                # Nothing was refused, so all were.
                if name != "same" or also != marks:
                    wrong.append(f"{call}: no fault at {number}: {answer}")
                break
            counts["faults"] += 1
            counts[name] += 1
            if name == "wrong" or also != marks:
                wrong.append(f"{call}: allocation {number} ({failed}){' and on' if onward else ''}: {' | '.join(answer)[:300]}")
        else:
            wrong.append(f"{call}: no end of faults")
    return counts, wrong


def main():
    ask = argparse.ArgumentParser(description=__doc__, formatter_class=argparse.RawDescriptionHelpFormatter)
    ask.add_argument("--remove", action="store_true")
    ask.add_argument("--sweep", nargs="*", metavar="CALL", choices=CALLS)
    ask.add_argument("--program", default=PROGRAM)
    ask.add_argument("--most", type=int, default=100_000, help="fewer faults than this of a call")
    given = ask.parse_args()
    if given.remove:
        return LAID.remove()
    if given.sweep is None:
        return LAID.add_built()
    wrong = []
    with tempfile.TemporaryDirectory() as given.scratch:
        given.shim = os.path.join(given.scratch, "shim.so")
        shim.build(given.shim)
        names = ("allocations", "faults", "same", "no memory", "wrong")
        print(f"{'call':10}" + "".join(f"{name:>13}" for name in names), flush=True)
        for call in given.sweep or CALLS:
            counts, found = sweep(given, call)
            print(f"{call:10}" + "".join(f"{counts.get(name, '-'):>13}" for name in names), flush=True)
            wrong += found
    print(f"wrong: {len(wrong) or 'nothing'}")
    for one in wrong:
        print(f"  {one}")
    return 1 if wrong else 0


if __name__ == "__main__":
    sys.exit(main())
