#!/usr/bin/env python3
"""Draws well-formed C programs that never go wrong, and writes them with what two C compilers say of them.

    tests/outside/draw_programs.py COUNT SEED                 prints so many rows of crates/worked_rows/data/drawn.txt
    tests/outside/draw_programs.py --statements COUNT SEED    the same, with `do`, compound assignment, `++` and `--`

A row: the bound, the program, its output and its closing line, with tabs between. A program has globals, arrays,
functions that call those before them, loops with few turns, `break`, `continue`, `if` with and without `else`, all
operators, and prints letters; with `--statements` most assignments are by an operator or a step, of names and cells, and
some loops are a `do`. One that the run-time checks of gcc or clang refuse (signed overflow, a shift or a
quotient that has no answer, an index past an array) or that runs for more than a second is drawn again.
"""
import os
import random
import subprocess
import sys
import tempfile

DRIVER = '#include <stdio.h>\nint program_main(void);\nint main(void) { int r = program_main(); fflush(stdout); fprintf(stderr, "%d", r); return 0; }\n'
TYPES = ("int", "unsigned")
# Both must tell the same: each leaves some faults untold that it finds while it compiles.
COMPILERS = (
    ("gcc", "-O0", "-fsanitize=undefined", "-fno-sanitize-recover=all"),
    ("clang", "-O0", "-fsanitize=undefined", "-fsanitize-trap=undefined"),
)


class Drawn:
    """One program, drawn from the front to the end."""

    def __init__(self, words):
        self.words = words
        self.globals = []
        self.arrays = []
        self.functions = []
        self.locals = []
        self.fixed = set()
        self.names = 0
        self.loops = 0

    def name(self, front):
        self.names += 1
        return f"{front}{self.names}"

    def constant(self):
        shape = self.words.randrange(6)
        if shape == 0:
            return f"0x{self.words.randrange(2**16):x}u"
        if shape == 1:
            return f"0{self.words.randrange(64):o}"
        if shape == 2:
            return f"'{self.words.choice('abcxyz')}'"
        return str(self.words.randrange(100))

    def expression(self, height):
        words = self.words
        if height == 0 or words.random() < 0.25:
            shape = words.randrange(4)
            if shape == 0 and self.globals:
                return words.choice(self.globals)
            if shape < 3 and self.locals:
                return words.choice(self.locals)
            return self.constant()
        shape = words.randrange(12)
        if shape == 0:
            return f"(({words.choice(TYPES)}){self.operand(height - 1)})"
        if shape == 1:
            return f"({words.choice('-+~!')}{self.operand(height - 1)})"
        if shape == 2 and self.arrays:
            array, size = words.choice(self.arrays)
            return f"{array}[(unsigned)({self.expression(height - 1)})%{size}u]"
        if shape == 3:
            return f"({self.expression(height - 1)}?{self.expression(height - 1)}:{self.expression(height - 1)})"
        if shape == 4:
            return f"({self.operand(height - 1)}{words.choice(('&&', '||'))}{self.operand(height - 1)})"
        if shape == 5:
            return f"({self.operand(height - 1)}{words.choice(('/', '%'))}({self.operand(height - 1)}|1))"
        if shape == 6:
            return f"((unsigned){self.operand(height - 1)}{words.choice(('<<', '>>'))}({self.operand(height - 1)}&7))"
        if shape == 7:
            return f"({self.operand(height - 1)}{words.choice(('<', '>', '<=', '>=', '==', '!='))}{self.operand(height - 1)})"
        if shape == 8:
            return f"({self.operand(height - 1)}{words.choice('&|^')}{self.operand(height - 1)})"
        return f"({self.operand(height - 1)}{words.choice('+-*')}{self.operand(height - 1)})"

    def operand(self, height):
        return f"({self.expression(height)})"

    def target(self):
        free = [name for name in self.locals if name not in self.fixed] + self.globals
        return self.words.choice(free) if free else None

    def call(self):
        function, parameters, has_value = self.words.choice(self.functions)
        arguments = ",".join(self.expression(1) for _ in range(parameters))
        target = self.target()
        if has_value and target and self.words.random() < 0.8:
            return f"{target}={function}({arguments});"
        return f"{function}({arguments});"

    def statement(self, depth):
        words = self.words
        shape = words.randrange(14)
        target = self.target()
        if shape < 3 and target:
            return f"{target}={self.expression(3)};"
        if shape == 3 and self.arrays:
            array, size = words.choice(self.arrays)
            return f"{array}[(unsigned)({self.expression(1)})%{size}u]={self.expression(2)};"
        if shape == 4:
            return f"putchar('a'+(int)((unsigned)({self.expression(2)})%26u));"
        if shape == 5 and self.functions:
            return self.call()
        if shape in (6, 7) and depth > 0:
            other = f" else {self.block(depth - 1)}" if words.random() < 0.5 else ""
            return f"if({self.expression(2)}){self.block(depth - 1)}{other}"
        if shape in (8, 9) and depth > 0:
            return self.loop(depth)
        if shape == 10 and self.loops:
            return f"if({self.expression(1)}){words.choice(('break', 'continue'))};"
        if shape == 11 and depth > 0:
            return self.block(depth - 1)
        return f"{target}={self.expression(2)};" if target else ";"

    def loop(self, depth):
        counter = self.name("i")
        turns = self.words.randrange(1, 7)
        self.locals.append(counter)
        self.fixed.add(counter)
        self.loops += 1
        body = self.block(depth - 1)
        self.loops -= 1
        self.locals.remove(counter)
        if self.words.random() < 0.5:
            return f"for(int {counter}=0;{counter}<{turns};{counter}={counter}+1){body}"
        return f"{{int {counter}=0; while({counter}<{turns}){{{counter}={counter}+1; {body[1:]}}}"

    def block(self, depth):
        kept = len(self.locals)
        parts = []
        for _ in range(self.words.randrange(1, 4)):
            if self.words.random() < 0.3:
                name = self.name("v")
                value = self.expression(2)
                self.locals.append(name)
                parts.append(f"{self.words.choice(TYPES)} {name}={value};")
            parts.append(self.statement(depth))
        del self.locals[kept:]
        return "{" + " ".join(parts) + "}"

    def function(self):
        name = self.name("f")
        parameters = [self.name("p") for _ in range(self.words.randrange(4))]
        has_value = self.words.random() < 0.7
        self.locals = list(parameters)
        heads = ",".join(f"{self.words.choice(TYPES)} {p}" for p in parameters) or "void"
        body = self.block(2)[1:-1]
        self.locals = list(parameters)
        end = f" return {self.expression(2)};" if has_value else ""
        self.functions.append((name, len(parameters), has_value))
        return f"{self.words.choice(TYPES) if has_value else 'void'} {name}({heads}){{{body}{end}}}"

    def program(self):
        words = self.words
        parts = ["int putchar(int);"]
        for _ in range(words.randrange(4)):
            name = self.name("g")
            parts.append(f"{words.choice(TYPES)} {name}={words.randrange(1000)};")
            self.globals.append(name)
        for _ in range(words.randrange(3)):
            name, size = self.name("a"), words.randrange(1, 9)
            first = ",".join(str(words.randrange(50)) for _ in range(words.randrange(1, size + 1)))
            parts.append(f"{words.choice(TYPES)} {name}[{size}]={{{first}}};")
            self.arrays.append((name, size))
        parts += [self.function() for _ in range(words.randrange(1, 4))]
        self.locals = []
        body = self.block(3)[1:-1]
        self.locals = []
        result = f"return (int)(({self.expression(2)})%100000);" if words.random() < 0.9 else ""
        return " ".join(parts + [f"int main(void){{{body} {result}}}"])


class DrawnWithChanges(Drawn):
    """One program, with `do`, compound assignment, `++` and `--`."""

    def change(self, lvalue):
        words = self.words
        shape = words.randrange(8)
        if shape == 0:
            return f"{lvalue}{words.choice(('++', '--'))};"
        if shape == 1:
            return f"{words.choice(('++', '--'))}{lvalue};"
        if shape == 2:
            return f"{lvalue}{words.choice(('/=', '%='))}({self.expression(2)})|1;"
        if shape == 3:
            return f"{lvalue}{words.choice(('<<=', '>>=', '>>='))}{self.operand(2)}&7;"
        if shape == 4:
            return f"{lvalue}{words.choice(('*=', '&=', '^=', '|='))}{self.expression(1)};"
        return f"{lvalue}{words.choice(('+=', '-=', '^='))}{self.expression(2)};"

    def statement(self, depth):
        words = self.words
        shape = words.randrange(5)
        target = self.target()
        if shape == 0 and self.arrays:
            array, size = words.choice(self.arrays)
            return self.change(f"{array}[(unsigned)({self.expression(1)})%{size}u]")
        if shape < 2 and target:
            return self.change(target)
        if shape == 2 and depth > 0:
            return self.loop(depth)
        return super().statement(depth)

    def loop(self, depth):
        counter, words = self.name("i"), self.words
        turns = words.randrange(1, 7)
        self.locals.append(counter)
        self.fixed.add(counter)
        self.loops += 1
        body = self.block(depth - 1)
        self.loops -= 1
        self.locals.remove(counter)
        shape = words.randrange(6)
        if shape == 0:
            return f"for(int {counter}=0;{counter}<{turns};{words.choice((f'{counter}++', f'++{counter}'))}){body}"
        if shape == 1:
            return f"for(int {counter}={turns * turns};{counter};{counter}>>=1){body}"
        if shape == 2:
            return f"{{int {counter}={turns}; do {body} while({counter}>{turns});}}"
        if shape == 3:
            return f"{{int {counter}={turns}; do{{{counter}--; {body[1:]}while({counter});}}"
        if shape == 4:
            return f"{{int {counter}=0; do{{{counter}+=2; {body[1:]}while({counter}<{turns});}}"
        return f"{{int {counter}=0; while({counter}<{turns}){{{counter}++; {body[1:]}}}"


def answers(program, folder):
    """What the compiled program prints and returns; none where it goes wrong or runs too long."""
    source, driver, binary = (os.path.join(folder, name) for name in ("program.c", "driver.c", "program"))
    with open(source, "w") as file:
        front, end = program.replace("main(void)", "program_main(void)").rsplit("}", 1)
        file.write(front + "return 0; }" + end + "\n")
    with open(driver, "w") as file:
        file.write(DRIVER)
    told = [ran([*compiler, "-std=c99", "-w", source, driver, "-o", binary], binary) for compiler in COMPILERS]
    return told[0] if told[0] == told[1] else None


def ran(command, binary):
    subprocess.run(command, check=True)
    try:
        run = subprocess.run([binary], capture_output=True, timeout=1)
    except subprocess.TimeoutExpired:
        return None
    result = run.stderr.decode()
    if run.returncode != 0 or not result.lstrip("-").isdigit():
        return None
    return run.stdout.decode("latin1"), f"ended {result}"


def main():
    given = sys.argv[1:]
    if not given[-2:] or not all(it.isdigit() for it in given[-2:]):
        sys.exit(__doc__)
    drawn = DrawnWithChanges if given[0] == "--statements" else Drawn
    count, seed = map(int, given[-2:])
    words = random.Random(seed)
    with tempfile.TemporaryDirectory() as folder:
        while count > 0:
            program = drawn(words).program()
            told = answers(program, folder)
            if told and len(program) < 1500 and len(told[0]) < 400:
                print(f"100000\t{program}\t{told[0]}\t{told[1]}", flush=True)
                count -= 1


if __name__ == "__main__":
    main()
