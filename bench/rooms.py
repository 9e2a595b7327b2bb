#!/usr/bin/env python3
"""How long a look at a word of a room takes, beside a bare atomic load, by the program `looked`.

    bench/rooms.py             adds crates/looked to the tree, proves and builds it
    bench/rooms.py --remove    takes it out again
    bench/rooms.py --speed     the fastest of ten runs of each: nanoseconds a load, a look at a proposer, at an
                               acceptor, and at one that has voted

Each load and each look waits for what the one before it found, as a seat's do, which act on what they see.

It is no part of the gate, so it stands as a patch, bench/rooms.patch, and is proved whenever it is used. Remove it
before anything is committed."""
import subprocess
import sys

from laid_out import LaidOut

LAID = LaidOut("bench/rooms.patch", "looked: rooms_seat paxos_core\n")
PROGRAM = LAID.program
COUNT = 10_000_000


def speed():
    best = {}
    for _ in range(10):
        ran = subprocess.run([PROGRAM, str(COUNT)], capture_output=True, text=True, check=True)
        for line in ran.stderr.splitlines():
            what, micros, _ = line.split()
            best[what] = min(best.get(what, 1 << 60), int(micros))
    for what, micros in best.items():
        print(f"{what} {micros * 1000 / COUNT:.2f} ns, {micros / best['load']:.1f} times a load")
    return 0


if __name__ == "__main__":
    asked = {"": LAID.add, "--remove": LAID.remove, "--speed": speed}.get(" ".join(sys.argv[1:]))
    sys.exit(asked() if asked else __doc__)
