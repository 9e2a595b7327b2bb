#!/usr/bin/env python3
"""The table of native code against the processor: native_blocks.py [BLOCKS [SEED]], or native_blocks.py --rows

Draws blocks of the instructions of `x86_syntax` with edge words in all registers, writes each as GNU assembly, lets gcc make a program of them, runs it,
and compares ends, registers, globals and output with the interpreter below. That is written from the words of the table, and knows nothing of the
Rattle code. A block asks nothing of the processor that the table leaves open (there the interpreter is Stuck): such an instruction is drawn anew.
First come all operators on all pairs of edge words, and on all pairs of registers.

With --rows it writes crates/worked_rows/data/native.txt: what the processor makes of edge words by each operator and condition, which the rows ask of the
interpreter of the model."""
import collections
import os
import random
import subprocess
import sys
import tempfile

M, ROOM, SIZES = 2**32, 14, [1, 5, 3]
REGISTERS = "r8d r9d r10d r11d ebx ebp r12d r13d eax ecx edx esi edi".split()
LONG = {r: r[:-1] if r[1].isdigit() else "r" + r[1:] for r in REGISTERS}
TWO, SHIFTS, CONDITIONS = "add sub imul and or xor".split(), ["shl", "shr", "sar"], "e ne l le b be ae".split()
EDGES = [0, 1, 2, 3, 31, 32, 255, 256, 2**31 - 1, 2**31, 2**31 + 1, M - 3, M - 2, M - 1, 0x12345678, 0xDEADBEEF]


Stuck = type("Stuck", (Exception,), {})


def signed(w):
    return w if w < 2**31 else w - M


OPERATED = {
    "add": lambda x, y: x + y, "sub": lambda x, y: x - y, "imul": lambda x, y: signed(x) * signed(y), "and": lambda x, y: x & y,
    "or": lambda x, y: x | y, "xor": lambda x, y: x ^ y, "shl": lambda x, n: x << n, "shr": lambda x, n: x >> n, "sar": lambda x, n: signed(x) >> n}
HOLDS = {
    "e": lambda x, y: x == y, "ne": lambda x, y: x != y, "l": lambda x, y: signed(x) < signed(y), "le": lambda x, y: signed(x) <= signed(y),
    "b": lambda x, y: x < y, "be": lambda x, y: x <= y, "ae": lambda x, y: x >= y}


class Run:
    """A state. Junk is None, and who reads it is Stuck, as is who reads a place to go back to."""

    def __init__(self, functions):
        self.functions, self.at, self.flags, self.stack, self.end = functions, (len(functions) - 1, 0), None, [("back", None)], None
        self.r, self.globals, self.output = dict.fromkeys(REGISTERS), [[0] * n for n in SIZES], []

    def known(self, answer):
        if answer is None: raise Stuck
        return answer

    def read(self, register): return self.known(self.r[register])
    def cell(self, k): return self.stack[k] if k < len(self.stack) and not isinstance(self.stack[k], tuple) else self.known(None)
    def cells(self, g, k): return self.globals[g] if k < len(self.globals[g]) else self.known(None)
    def asks(self, cc): return HOLDS[cc](*self.known(self.flags))
    def label(self, l): return (self.at[0], self.functions[self.at[0]].index(("Label", l)))

    def divide(self, form, divisor):
        high, x, y = self.read("edx"), self.read("eax"), self.read(divisor)
        if high != (M - 1 if form == "Divide" and x >= 2**31 else 0) or y == 0: raise Stuck
        x, y = (signed(x), signed(y)) if form == "Divide" else (x, y)
        q = abs(x) // abs(y) * (1 if (x < 0) == (y < 0) else -1)
        if form == "Divide" and q == 2**31: raise Stuck
        self.r["eax"], self.r["edx"] = q % M, (x - q * y) % M

    def step(self):
        """Does one instruction. Flags are none behind what the second match does not name."""
        r, kept, (f, place) = self.r, self.flags, self.at
        i = self.functions[f][place]
        self.at, self.flags = (f, place + 1), None
        match i:
            case ("Do" | "DoWith", op, d, s):
                r[d] = OPERATED[op](self.read(d), self.read(s) if i[0] == "Do" else s) % M
                self.flags = (r[d], 0) if op in ("and", "or", "xor") else None
            case ("Turn", "neg", d): r[d] = -self.read(d) % M
            case ("Shift" | "ShiftBy", op, d, *count):
                count = count[0] if count else self.read("ecx")
                r[d] = OPERATED[op](self.read(d), count if count < 32 else self.known(None)) % M
            case ("Divide" | "DivideU", b): self.divide(i[0], b)
            case ("Compare", a, b): self.flags = (self.read(a), self.read(b))
            case ("CompareWith", a, w): self.flags = (self.read(a), w)
            case ("Call", n): self.stack.insert(0, ("back", self.at)); self.at = (n, 0)
            case ("Return",):
                if not isinstance(self.stack[0], tuple): raise Stuck
                self.at = self.stack.pop(0)[1]
                self.end = None if self.at else "ended"
            case ("Room",): self.end = "full" if len(self.stack) > ROOM else None
            case ("Grow", n): self.stack[:0] = [None] * n
            case ("Shrink", n): self.stack = [self.cell(k) for k in range(n)][n:] + self.stack[n:]
            case ("Put",):
                self.output.append(self.read("edi") % 256)
                r.update(eax=self.output[-1], ecx=None, edx=None, esi=None, edi=None)
            case _: self.flags = kept
        match i:
            case ("Copy", d, s): r[d] = self.read(s)
            case ("Set", d, w): r[d] = w
            case ("Take", d, k): r[d] = self.cell(k)
            case ("Keep", k, s): self.cell(k); self.stack[k] = self.read(s)
            case ("Turn", "not", d): r[d] = M - 1 - self.read(d)
            case ("Extend",): r["edx"] = M - 1 if self.read("eax") >= 2**31 else 0
            case ("Flag", cc, d): r["eax"] = self.read("eax") // 256 * 256 + self.asks(cc); r[d] = int(self.asks(cc))
            case ("Jump", l): self.at = self.label(l)
            case ("JumpIf", cc, l): self.at = self.label(l) if self.asks(cc) else self.at
            case ("Stop",): self.end = "wrong"
            case ("StopIf", cc): self.end = "wrong" if self.asks(cc) else None
            case ("Load", d, g, x): r[d] = self.cells(g, self.read(x))[self.read(x)]
            case ("LoadAt", d, g, k): r[d] = self.cells(g, k)[k]
            case ("Store", g, x, s): self.cells(g, self.read(x))[self.read(x)] = self.read(s)
            case ("StoreAt", g, k, s): self.cells(g, k)[k] = self.read(s)


TEXTS = {
    "Label": ".L{f}.{0}:", "Skip": "#", "Copy": "movl %{1}, %{0}", "Set": "movl ${1}, %{0}", "Take": "movl 8*{1}(%rsp), %{0}",
    "Keep": "movl %{1}, 8*{0}(%rsp)", "Do": "{0}l %{2}, %{1}", "DoWith": "{0}l ${2}, %{1}", "Turn": "{0}l %{1}", "Shift": "{0}l ${2}, %{1}",
    "ShiftBy": "{0}l %cl, %{1}", "Extend": "cltd", "Divide": "idivl %{0}", "DivideU": "divl %{0}", "Compare": "cmpl %{1}, %{0}",
    "CompareWith": "cmpl ${1}, %{0}", "Flag": "set{0} %al; movzbl %al, %{1}", "Jump": "jmp .L{f}.{0}", "JumpIf": "j{0} .L{f}.{1}",
    "Stop": "jmp .Lwrong", "StopIf": "j{0} .Lwrong", "Load": "movl g.{1}-g.0+0(%r14,%{x},4), %{0}", "Return": "ret", "Call": "call f.{0}",
    "Store": "movl %{2}, g.{0}-g.0+0(%r14,%{x},4)", "LoadAt": "movl g.{1}-g.0+4*{2}(%r14), %{0}", "StoreAt": "movl %{2}, g.{0}-g.0+4*{1}(%r14)",
    "Room": "cmpq %r15, %rsp; jb .Lfull", "Grow": "subq $8*{0}, %rsp", "Shrink": "addq $8*{0}, %rsp", "Put": "call .Lput"}
HARNESS = """.globl run_block, count, bytes, cells, blocks
run_block: pushq %rbx; pushq %rbp; pushq %r12; pushq %r13; pushq %r14; pushq %r15
movq %rsi, result(%rip); movq %rsp, saved(%rip); leaq g.0(%rip), %r14; leaq -{room}(%rsp), %r15; call *%rdi; movl $0, end(%rip); jmp .Lover
.Lwrong: movl $1, end(%rip); jmp .Lover
.Lfull: movl $2, end(%rip)
.Lover: movq saved(%rip), %rsp; movq result(%rip), %r14; {stores}; movl end(%rip), %eax; movl %eax, 52(%r14)
popq %r15; popq %r14; popq %r13; popq %r12; popq %rbp; popq %rbx; ret
.Lput: movl count(%rip), %eax; leaq bytes(%rip), %rcx; movb %dil, (%rcx,%rax); incl count(%rip); movzbl %dil, %eax
movl $0x5555, %ecx; movl $0x6666, %edx; movl $0x7777, %esi; movl $0x8888, %edi; cmpl %eax, %ecx; ret
.bss; .balign 8; result: .zero 8; saved: .zero 8; end: .zero 4; count: .zero 4; bytes: .zero 4096; cells: {globals}
.section .note.GNU-stack,"",@progbits; .data; .balign 8
"""
DRIVER = """#include <stdio.h>
#include <string.h>
extern unsigned count, cells[]; extern unsigned char bytes[]; extern void (*blocks[])(void); void run_block(void (*)(void), unsigned *);
int main(void) { for (int i = 0; i < %d; i++) { unsigned r[14]; count = 0; memset(cells, 0, 4 * %d); run_block(blocks[i], r);
for (int k = 0; k < 14; k++) printf("%%u ", r[k]); for (int k = 0; k < %d; k++) printf("%%u ", cells[k]);
for (unsigned k = 0; k < count; k++) printf("p%%u ", bytes[k]); putchar('\\n'); } }
"""


def text(i, f):
    a = [signed(x) if isinstance(x, int) else x for x in i[1:]]
    return TEXTS[i[0]].format(*a, f=f, x=LONG[i[3] if i[0] == "Load" else i[2] if i[0] == "Store" else "eax"])


def on_processor(functions, mains):
    """A line of numbers for each block: registers, end, globals, output."""
    stores, cells = [f"movl %{r}, {4 * k}(%r14)" for k, r in enumerate(REGISTERS)], [f"g.{g}: .zero {4 * n}" for g, n in enumerate(SIZES)]
    lines = [line for f, code in enumerate(functions) for line in [f"f.{f}:", *(text(i, f) for i in code)]]
    lines += [HARNESS.format(room=8 * ROOM, stores="; ".join(stores), globals="; ".join(cells)), "blocks:", *(f".quad f.{m}" for m in mains), ""]
    with tempfile.TemporaryDirectory() as folder:
        for name, it in ("b.s", "\n".join(lines)), ("d.c", DRIVER % (len(mains), sum(SIZES), sum(SIZES))):
            with open(f"{folder}/{name}", "w", encoding="ascii") as out: out.write(it)
        subprocess.run(["gcc", "-o", f"{folder}/b", f"{folder}/b.s", f"{folder}/d.c"], check=True)
        told = subprocess.run([f"{folder}/b"], stdin=subprocess.DEVNULL, stdout=subprocess.PIPE, text=True, check=True)
    return [line.split() for line in told.stdout.splitlines()]


def draw(rng, depth):
    """An instruction, or some that belong together."""
    r, w, n, k = lambda: rng.choice(REGISTERS), lambda: rng.choice(EDGES + [rng.randrange(M)]), rng.randrange(1, 5), rng.randrange(depth + 2)
    cc, g, i, two, c = rng.choice(CONDITIONS), rng.randrange(len(SIZES)), rng.randrange(6), rng.choice(TWO), rng.randrange(34)
    return rng.choice([
        [("Skip",)], [("Copy", r(), r())], [("Set", r(), w())], [("Set", r(), i)], [("Take", r(), k)], [("Keep", k, r())], [("Do", two, r(), r())],
        [("DoWith", two, r(), w())], [("Turn", rng.choice(["neg", "not"]), r())], [("Shift", rng.choice(SHIFTS), r(), c)], [("Extend",)], [("Divide", r())],
        [("Set", "ecx", c), ("ShiftBy", rng.choice(SHIFTS), r())], [("Extend",), ("Divide", r())], [("Set", "edx", 0), ("DivideU", r())],
        [("Compare", r(), r())], [("CompareWith", r(), w())], [("Flag", cc, r())], [("StopIf", cc)], [("Call", rng.randrange(3))], [("Room",)],
        [("JumpIf", cc, "on"), ("Turn", "not", r()), ("Label", "on")], [("Jump", "on"), ("Turn", "neg", r()), ("Label", "on")],
        [("Load", r(), g, r())], [("Store", g, r(), r())], [("LoadAt", r(), g, i)], [("StoreAt", g, i, r())], [("Stop",)] if c == 0 else [("Skip",)],
        [("Grow", n)] + [("Keep", k, r()) for k in range(n)], [("Shrink", n)], [("Put",)] + [("Set", x, w()) for x in REGISTERS[9:]]])


def block(rng, functions, body, drawn):
    """The run of a new function: it sets all registers, does the body and so many drawn instructions that are defined, and returns."""
    main, code = len(functions), []
    functions.append(code)
    run = Run(functions)

    def does(instructions):
        label = len(code)
        code.extend(tuple(label if part == "on" else part for part in i) for i in instructions)
        while not run.end and run.at != (main, len(code)): run.step()

    does([("Set", r, rng.choice(EDGES)) for r in REGISTERS] + [("Grow", 3)] + [("Keep", k, rng.choice(REGISTERS)) for k in range(3)])
    does([("StoreAt", g, k, rng.choice(REGISTERS)) for g, n in enumerate(SIZES) for k in range(n)] + body)
    while drawn and not run.end:
        before = len(code), dict(run.r), run.flags, list(run.stack), [list(g) for g in run.globals], list(run.output), run.at
        try:
            does(draw(rng, len(run.stack) - 1))
            drawn -= 1
        except Stuck:
            del code[before[0]:]
            _, run.r, run.flags, run.stack, run.globals, run.output, run.at = before
    does([("Shrink", len(run.stack) - 1), ("Return",)] if not run.end else [])
    return main, [run.r[r] for r in REGISTERS] + [["ended", "wrong", "full"].index(run.end)] + sum(run.globals, []) + [f"p{b}" for b in run.output]


def fixed_bodies():
    for x, y in ((x, y) for x in EDGES for y in EDGES):
        sets = [("Set", "r8d", x), ("Set", "ebx", y), ("Set", "eax", x), ("Set", "ecx", y % 32)]
        for op in TWO:
            ask = [("Flag", cc, d) for cc, d in zip(CONDITIONS, REGISTERS)] if op in ("and", "or", "xor") else []
            yield from (sets + [do] + ask for do in (("Do", op, "r8d", "ebx"), ("DoWith", op, "r8d", y)))
        for cc in CONDITIONS:
            yield sets + [("Compare", "r8d", "ebx"), ("Flag", cc, "esi"), ("CompareWith", "r8d", y), ("Flag", cc, "r13d"), ("StopIf", cc)]
        yield from (sets + [("Turn", op, "r8d")] for op in ("neg", "not"))
        yield from (sets + [("Shift", op, "r8d", y % 32), ("ShiftBy", op, "ebx"), ("ShiftBy", op, "ecx")] for op in SHIFTS)
        if y and (x, y) != (2**31, M - 1): yield sets + [("Extend",), ("Divide", "ebx")]
        if y: yield sets + [("Set", "edx", 0), ("DivideU", "ebx")]
    for d, s in ((d, s) for d in REGISTERS for s in REGISTERS):
        yield [("Copy", d, s), ("Compare", s, d), ("Flag", "be", d), ("Flag", "l", s)] + [("Do", op, d, s) for op in TWO]
        yield [("Set", s, 2), ("Load", d, 1, s), ("Set", s, 3), ("Store", 1, s, d), ("LoadAt", d, 0, 0), ("StoreAt", 2, 1, d), ("Keep", 1, d), ("Take", s, 1)]


def main(blocks=10000, seed=1):
    rng, frame = random.Random(int(seed)), [("Grow", 1), ("Room",), ("Keep", 0, "r8d"), ("Take", "edi", 0), ("Shrink", 1)]
    functions = [[("Return",)], [("Do", "add", "r9d", "r12d"), ("Return",)], [("Call", 1), *frame, ("Return",)]]
    runs = [block(rng, functions, body, 0) for body in fixed_bodies()] + [block(rng, functions, [], rng.randrange(1, 40)) for _ in range(int(blocks))]
    told = on_processor(functions, [m for m, _ in runs])
    wrong = [(m, run, t) for (m, run), t in zip(runs, told) if len(t) != len(run) or any(w not in (None, x) and str(w) != x for w, x in zip(run, t))]
    for m, run, t in wrong[:3]: print("differs:", *(text(i, m) for i in functions[m]), "wanted", run, "told", t, sep="\n")
    forms = collections.Counter(i[0] for m, _ in runs for i in functions[m])
    print(f"{len(runs)} blocks, {blocks} of them drawn; {forms.total()} instructions of {len(forms)} forms; {len(wrong)} blocks differ")
    print("ends:", dict(collections.Counter(("ended", "wrong", "full")[run[13]] for _, run in runs)), "forms:", dict(sorted(forms.items())))
    return bool(wrong)


def asked(op, x, y):
    """The instructions that ask an operator of two words, and the register of the result; none where that is left open."""
    sets, fits = [("Set", "r8d", x), ("Set", "r9d", y), ("Set", "ecx", y)], (x, y) != (2**31, M - 1)
    if op.removesuffix("w") in TWO: return sets + [("DoWith", op[:-1], "r8d", y) if op.endswith("w") else ("Do", op, "r8d", "r9d")], "r8d"
    if op[:3] in SHIFTS: return y < 32 and (sets + [("ShiftBy", op[:3], "r8d") if op.endswith("b") else ("Shift", op, "r8d", y)], "r8d")
    if op in ("neg", "not"): return y == 0 and (sets + [("Turn", op, "r8d")], "r8d")
    if op == "cltd": return y == 0 and (sets + [("Copy", "eax", "r8d"), ("Extend",)], "edx")
    if op in ("idiv", "irem"): return y and fits and (sets + [("Copy", "eax", "r8d"), ("Extend",), ("Divide", "r9d")], "eax" if op == "idiv" else "edx")
    if op in ("div", "rem"): return y and (sets + [("Copy", "eax", "r8d"), ("Set", "edx", 0), ("DivideU", "r9d")], "eax" if op == "div" else "edx")
    return sets + [("CompareWith", "r8d", y) if op.endswith("w") else ("Compare", "r8d", "r9d"), ("Flag", op.removesuffix("w"), "r8d")], "r8d"


def rows():
    """Asks the processor, and writes the rows."""
    functions, mains, registers, lines = [[("Return",)]], [], [], {}
    shifts = SHIFTS + [op + "b" for op in SHIFTS]
    for op in TWO + [op + "w" for op in TWO] + shifts + ["neg", "not", "cltd", "idiv", "irem", "div", "rem"] + CONDITIONS + [cc + "w" for cc in CONDITIONS]:
        for x, y in ((x, y) for x in EDGES for y in EDGES):
            body = asked(op, x, y)
            if not body: continue
            mains.append(block(random.Random(0), functions, body[0], 0)[0])
            registers.append(REGISTERS.index(body[1]))
            lines.setdefault((op, x), []).append(y)
    told = (line[k] for line, k in zip(on_processor(functions, mains), registers))
    path = os.path.join(os.path.dirname(os.path.abspath(__file__)), "..", "..", "crates", "worked_rows", "data", "native.txt")
    with open(path, "w", encoding="ascii") as out:
        out.write("# Made by tests/outside/native_blocks.py --rows: what the processor makes of edge words\n")
        for (op, x), ys in lines.items(): out.write(f"{op} {x} {','.join(map(str, ys))} => {' '.join(next(told) for _ in ys)}\n")
    return 0


sys.exit(rows() if sys.argv[1:] == ["--rows"] else main(*sys.argv[1:]))
