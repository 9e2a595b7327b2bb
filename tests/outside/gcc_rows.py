#!/usr/bin/env python3
"""What a C compiler says of programs, as rows of crates/worked_rows/data/gcc.txt.

    tests/outside/gcc_rows.py FILE          one program a line: prints its row
    tests/outside/gcc_rows.py --compare     compares the rows that stand in gcc.txt with the compiler
    tests/outside/gcc_rows.py --examples    prints the rows of examples.txt: the programs of examples/, in hex

A row: the bound, the program, its output and its closing line, with tabs between. A row in hex: the program, the
bound, the output and the closing line, with blanks between. The programs never go wrong.
"""
import os
import subprocess
import sys
import tempfile

ROOT = os.path.dirname(os.path.dirname(os.path.dirname(os.path.realpath(__file__))))
ROWS = os.path.join(ROOT, "crates", "worked_rows", "data", "gcc.txt")
DRIVER = '#include <stdio.h>\nint program_main(void);\nint main(void) { int r = program_main(); fflush(stdout); fprintf(stderr, "%d", r); return 0; }\n'


def answers(program):
    with tempfile.TemporaryDirectory() as folder:
        source, driver, binary = (os.path.join(folder, name) for name in ("program.c", "driver.c", "program"))
        with open(source, "w") as file:
            # main's end returns 0, which the compiler knows of the name main alone
            front, end = program.replace("main(void)", "program_main(void)").rsplit("}", 1)
            file.write(front + "return 0; }" + end + "\n")
        with open(driver, "w") as file:
            file.write(DRIVER)
        subprocess.run(["gcc", "-std=c99", "-w", "-O1", "-fsanitize=undefined", source, driver, "-o", binary], check=True)
        run = subprocess.run([binary], capture_output=True, check=True)
        result = run.stderr.decode()
        if not result.lstrip("-").isdigit():
            raise SystemExit(f"goes wrong: {program}\n{result}")
        return run.stdout, f"ended {result}"


def row_of(program, bound="100000"):
    output, closing = answers(program)
    return f"{bound}\t{program}\t{output.decode('latin1')}\t{closing}"


def example_rows():
    folder = os.path.join(ROOT, "examples")
    for name in sorted(name for name in os.listdir(folder) if name.endswith(".c")):
        with open(os.path.join(folder, name)) as file:
            program = file.read()
        output, closing = answers(program)
        yield f"{program.encode().hex()} 100000 {output.hex() or '-'} {closing}"


def main():
    if len(sys.argv) != 2 or sys.argv[1] == "--help":
        sys.exit(__doc__)
    if sys.argv[1:] == ["--compare"]:
        with open(ROWS) as file:
            rows = file.read().splitlines()
        bad = [row for row in rows if row != row_of(row.split("\t")[1], row.split("\t")[0])]
        print("\n".join(bad + [f"{len(rows) - len(bad)} of {len(rows)} agree"]))
        return
    if sys.argv[1:] == ["--examples"]:
        print("\n".join(example_rows()))
        return
    with open(sys.argv[1]) as file:
        for program in file.read().splitlines():
            print(row_of(program))


if __name__ == "__main__":
    main()
