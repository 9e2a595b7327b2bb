#!/usr/bin/env python3
"""The assembly text of a linked program, or the header of what it exports, by a second writer: native_text.py PROGRAM.cfp [PREFIX [--header]]

Reads the bytes as docs/FORMATS has them, and writes the text as docs/NATIVE has it; it knows nothing of the Rattle code. The fixed text stands below
word for word, since it is trusted and not made."""
import struct
import sys

R = "r8d r9d r10d r11d ebx ebp r12d r13d".split()
WIDE = "r8 r9 r10 r11 rbx rbp r12 r13".split()
PASS = "edi esi edx ecx".split()
OPERATORS = (None, "NegS", "NegU", "Not", "IsZero", "AddS", "AddU", "SubS", "SubU", "MulS", "MulU", "DivS", "DivU", "ModS", "ModU", "And", "Or", "Xor",
             "ShlS", "ShlU", "ShrS", "ShrU", "Eq", "Ne", "LtS", "LtU", "LeS", "LeU")
CONDITIONS = "Nz Eq Ne LtS LtU LeS LeU".split()
CC = {"Eq": "e", "Ne": "ne", "LtS": "l", "LtU": "b", "LeS": "le", "LeU": "be"}
MADE = {"Add": "addl", "Sub": "subl", "Mul": "imull", "And": "andl", "Or": "orl", "Xor": "xorl"}
SHIFTED = {"ShlS": "shll", "ShlU": "shll", "ShrU": "shrl", "ShrS": "sarl"}

KEPT = " pushq %rbx\n pushq %rbp\n pushq %r12\n pushq %r13\n pushq %r14\n pushq %r15\n"
BACK = " popq %r15\n popq %r14\n popq %r13\n popq %r12\n popq %rbp\n popq %rbx\n ret\n"
RESULT = " movl %eax, %ebx\n call .Lflush\n movl %ebx, %eax\n"
ALIGNED = " pushq %rbp\n movq %rsp, %rbp\n andq $-16, %rsp\n"
ROUTINES = (
    ".Lenter:\n leaq .Lglobals(%rip), %r14\n movq .Llimit(%rip), %r15\n testq %r15, %r15\n je .Lfind\n.Lfound:\n"
    + "".join(f" xorl %{r}, %{r}\n" for r in R) + " ret\n"
    ".Lfind:\n pushq %rdi\n pushq %rsi\n pushq %rdx\n pushq %rcx\n movq %rsp, %rbp\n subq $16, %rsp\n andq $-16, %rsp\n movl $3, %edi\n"
    " movq %rsp, %rsi\n call getrlimit@PLT\n movq (%rsp), %rax\n movl $1073741824, %ecx\n cmpq %rcx, %rax\n cmovaq %rcx, %rax\n"
    " movq %rax, %rdx\n shrq $2, %rdx\n subq %rdx, %rax\n leaq 65536(%rbp), %r15\n subq %rax, %r15\n movq %r15, .Llimit(%rip)\n"
    " movq %rbp, %rsp\n popq %rcx\n popq %rdx\n popq %rsi\n popq %rdi\n jmp .Lfound\n"
    ".Lput:\n pushq %r8\n pushq %r9\n pushq %r10\n pushq %r11\n" + ALIGNED + " movzbl %dil, %edi\n call putchar@PLT\n"
    " movq %rbp, %rsp\n popq %rbp\n popq %r11\n popq %r10\n popq %r9\n popq %r8\n testl %eax, %eax\n js .Lunwritten\n ret\n"
    ".Lflush:\n" + ALIGNED + " xorl %edi, %edi\n call fflush@PLT\n movq %rbp, %rsp\n popq %rbp\n testl %eax, %eax\n jne .Lunwritten\n ret\n"
    ".Lwrong:\n call .Lflush\n movl $5, %ebx\n leaq .Ltold5(%rip), %rsi\n movl $6, %edx\n jmp .Lend\n"
    ".Lfull:\n call .Lflush\n movl $7, %ebx\n leaq .Ltold7(%rip), %rsi\n movl $7, %edx\n jmp .Lend\n"
    ".Lunwritten:\n movl $4, %ebx\n leaq .Ltold4(%rip), %rsi\n movl $10, %edx\n"
    ".Lend:\n andq $-16, %rsp\n movl $2, %edi\n call write@PLT\n movl %ebx, %edi\n call _exit@PLT\n"
    + "".join(f".Ltold{n}:\n .byte {','.join(str(b) for b in line)}\n" for n, line in ((5, b"wrong\n"), (7, b"memory\n"), (4, b"write 701\n")))
    + " .data\n .p2align 3\n.Llimit:\n .quad 0\n.Lglobals:\n")
NOTE = ' .section .note.GNU-stack,"",@progbits\n'


class Bytes:
    def __init__(self, data): self.data, self.at = data, 0

    def take(self, form):
        (value,) = struct.unpack_from(form, self.data, self.at)
        self.at += struct.calcsize(form)
        return value

    def u8(self): return self.take(">B")
    def u16(self): return self.take(">H")
    def u32(self): return self.take(">I")
    def text(self, n): self.at += n; return self.data[self.at - n:self.at]
    def location(self): return ("r", self.u8()) if self.u8() == 0 else ("s", self.u16())
    def option(self, read): return read() if self.u8() else None
    def arguments(self, count): return [self.u8() for _ in range(count)]


def instruction(b):
    code = b.u8()
    if code == 1: return ("constant", b.u8(), b.u32())
    if code == 2: return ("move", b.location(), b.location())
    if code == 3:
        op = b.u8()
        return ("operator", OPERATORS[op], b.u8(), b.arguments(1 if op < 5 else 2))
    if code == 4: return ("load", b.u8(), b.u16(), b.u8())
    if code == 5: return ("store", b.u16(), b.u8(), b.u8())
    if code == 6:
        f, n = b.u8(), b.u8()
        return ("call", f, [b.location() for _ in range(n)], b.option(b.location))
    if code == 7: return ("put", b.u8(), b.option(b.u8))
    if code == 8:
        c = b.u8()
        return ("branch", CONDITIONS[c], b.arguments(1 if c == 0 else 2), b.u16())
    if code == 9: return ("return", b.option(b.u8))
    return ("label" if code == 10 else "goto", b.u16())


def program(data):
    """The globals, each its cells and first words, and the functions: name, parameters, slots, code."""
    b = Bytes(data)
    assert b.text(5) == b"CFP1\x04"
    variables = [(b.u32(), [b.u32() for _ in range(b.u32())]) for _ in range(b.u16())]
    functions = []
    for _ in range(b.u8()):
        name = b.text(b.u8()).decode()
        assert b.u8() == 4
        parameters = [b.location() for _ in range(b.u8())]
        slots = b.u16()
        functions.append((name, parameters, slots, [instruction(b) for _ in range(b.u32())]))
    assert b.at == len(data)
    return variables, functions


def is_power(w): return w is not None and w.bit_count() == 1
def signed(w): return w if w < 2**31 else w - 2**32


class Writer:
    """Writes one function."""

    def __init__(self, variables, functions, number):
        self.variables, self.functions, self.number = variables, functions, number
        self.name, self.parameters, slots, self.code = functions[number]
        self.out, self.words, self.flag = [], {}, None
        self.labels = {i[1] for i in self.code if i[0] == "label"}
        self.aims = {i[-1] for i in self.code if i[0] in ("goto", "branch")}
        self.outs = max([len(i[2]) - 4 for i in self.code if i[0] == "call"] + [0])
        written = {l[1] for l in self.parameters if l[0] == "r"} | {self.target(i) for i in self.code}
        self.saved = [r for r in range(4, 8) if r in written]
        self.first_saved = self.outs + slots
        self.size = self.first_saved + len(self.saved)

    def target(self, i):
        """The register that an instruction writes, if it writes one."""
        kind, at = i[0], {"constant": 1, "move": 1, "operator": 2, "load": 1, "call": 3, "put": 2}
        l = i[at[kind]] if kind in at else None
        return (l[1] if l[0] == "r" else None) if isinstance(l, tuple) else l

    def line(self, verb, *operands): self.out.append(" " + " ".join([verb, ", ".join(operands)]).rstrip() + "\n")
    def move(self, source, target): self.line("movl", source, target)
    def cell(self, k): return f"{8 * k}(%rsp)"
    def slot(self, s): return self.cell(self.outs + s)
    def reg(self, r): return "%" + R[r]
    def place(self, l): return f".L{self.number}.{l}"

    def jump(self, label, cc=None):
        self.line("jmp" if cc is None else "j" + cc, self.place(label) if label in self.labels else ".Lwrong")

    def compared(self, a, b):
        self.line("cmpl", f"${signed(self.words[b])}" if b in self.words else self.reg(b), self.reg(a))

    def copy(self, d, a):
        if a != d: self.move(self.reg(a), self.reg(d))

    def fetch(self, l, register): self.move(self.reg(l[1]) if l[0] == "r" else self.slot(l[1]), register)
    def put(self, register, l): self.move(register, self.reg(l[1]) if l[0] == "r" else self.slot(l[1]))

    def keep(self, l, k):
        if l[0] == "s": self.move(self.slot(l[1]), "%eax")
        self.move("%eax" if l[0] == "s" else self.reg(l[1]), self.cell(k))

    def tested(self, index, bound, cc):
        self.line("cmpl", f"${signed(bound)}", self.reg(index))
        self.line("j" + cc, ".Lwrong")

    def operator(self, op, d, a, b):
        D, A, B, w = self.reg(d), self.reg(a), None if b is None else self.reg(b), self.words.get(b)
        kind = op[:3] if op not in ("Or",) else "Or"
        if op in ("NegS", "NegU", "Not"):
            self.copy(d, a)
            self.line("notl" if op == "Not" else "negl", D)
        elif kind in MADE:
            if w is None and b == d and a != b:
                if kind == "Sub":
                    self.move(A, "%eax")
                    self.line("subl", D, "%eax")
                    self.move("%eax", D)
                else: self.line(MADE[kind], A, D)
            else:
                self.copy(d, a)
                if kind == "Mul" and is_power(w): self.line("shll", f"${w.bit_length() - 1}", D)
                else: self.line(MADE[kind], B if w is None else f"${signed(w)}", D)
        elif op in SHIFTED:
            if w is not None and w < 32:
                self.copy(d, a)
                self.line(SHIFTED[op], f"${w}", D)
            else:
                self.tested(b, 32, "ae")
                self.move(B, "%ecx")
                self.move(A, "%eax")
                self.line(SHIFTED[op], "%cl", "%eax")
                self.move("%eax", D)
        elif kind in ("Div", "Mod"): self.divide(op[3] == "S", kind == "Div", d, a, b, w)
        elif op == "IsZero":
            self.line("cmpl", "$0", A)
            self.flagged("e", D)
        else:
            self.compared(a, b)
            self.flagged(CC[op], D)

    def flagged(self, cc, D):
        self.line("set" + cc, "%al")
        self.line("movzbl", "%al", D)

    def divide(self, is_signed, is_quotient, d, a, b, w):
        D, A, B = self.reg(d), self.reg(a), self.reg(b)
        if is_power(w) and not is_signed:
            self.copy(d, a)
            self.line("shrl", f"${w.bit_length() - 1}", D) if is_quotient else self.line("andl", f"${signed(w - 1)}", D)
            return
        if is_power(w) and w < 2**31:
            self.move(A, "%eax")
            self.line("cltd")
            self.line("andl", f"${w - 1}", "%edx")
            self.line("addl", "%edx", "%eax")
            if is_quotient: self.line("sarl", f"${w.bit_length() - 1}", "%eax")
            else:
                self.line("andl", f"${w - 1}", "%eax")
                self.line("subl", "%edx", "%eax")
            self.move("%eax", D)
            return
        if w is None or w == 0 or is_signed and w == 2**32 - 1:
            self.tested(b, 0, "e")
            if is_signed:
                self.move(A, "%ecx")
                self.line("xorl", f"${-2**31}", "%ecx")
                self.move(B, "%edx")
                self.line("notl", "%edx")
                self.line("orl", "%edx", "%ecx")
                self.line("je", ".Lwrong")
            self.move(B, "%ecx")
        else: self.move(f"${signed(w)}", "%ecx")
        self.move(A, "%eax")
        self.line("cltd") if is_signed else self.move("$0", "%edx")
        self.line("idivl" if is_signed else "divl", "%ecx")
        self.move("%eax" if is_quotient else "%edx", D)

    def global_cell(self, g, index):
        """A cell of a global, whose index is tested unless it is known; none where the global is missing."""
        if g >= len(self.variables): return None
        cells, w = self.variables[g][0], self.words.get(index)
        if w is not None and w < cells: return f"g.{g}-.Lglobals+{4 * w}(%r14)"
        self.tested(index, cells, "ae")
        return f"g.{g}-.Lglobals(%r14,%{WIDE[index]},4)"

    def do_constant(self, d, w):
        self.move(f"${signed(w)}", self.reg(d))
        self.known(d, w)

    def do_move(self, target, source):
        self.fetch(source, self.reg(target[1])) if target[0] == "r" else self.keep(source, self.outs + target[1])
        if target[0] == "r": self.known(target[1])

    def do_operator(self, op, d, arguments):
        self.operator(op, d, arguments[0], arguments[1] if len(arguments) > 1 else None)
        masked = op == "ModU" and is_power(self.words.get(arguments[1]))
        flag = "e" if op == "IsZero" else "ne" if masked or op in ("And", "Or", "Xor") else CC.get(op)
        self.words.pop(d, None)
        self.flag = (d, flag) if flag else None

    def do_load(self, d, g, index):
        cell = self.global_cell(g, index)
        self.move(cell, self.reg(d)) if cell else self.line("jmp", ".Lwrong")
        self.lost(d)

    def do_store(self, g, index, source):
        cell = self.global_cell(g, index)
        self.move(self.reg(source), cell) if cell else self.line("jmp", ".Lwrong")
        self.flag = None

    def do_put(self, source, target):
        self.move(self.reg(source), "%edi")
        self.line("call", ".Lput")
        if target is not None: self.move("%eax", self.reg(target))
        self.lost(target)

    def do_call(self, f, arguments, target):
        if f >= len(self.functions) or len(self.functions[f][1]) != len(arguments): self.line("jmp", ".Lwrong")
        else:
            for k, l in enumerate(arguments[4:]): self.keep(l, k)
            for r, l in zip(PASS, arguments): self.fetch(l, "%" + r)
            self.line("call", "f." + self.functions[f][0])
            if target is not None: self.put("%eax", target)
        self.words, self.flag = {}, None

    def do_branch(self, condition, arguments, label):
        if condition == "Nz" and self.flag and self.flag[0] == arguments[0]:
            self.jump(label, self.flag[1])
            return
        if condition == "Nz": self.line("cmpl", "$0", self.reg(arguments[0]))
        else: self.compared(*arguments)
        self.jump(label, CC.get(condition, "ne"))
        self.flag = None

    def do_return(self, value):
        if value is not None: self.move(self.reg(value), "%eax")
        for k, r in enumerate(self.saved): self.move(self.cell(self.first_saved + k), self.reg(r))
        self.line("addq", f"${8 * self.size}", "%rsp")
        self.line("ret")
        self.flag = None

    def do_label(self, label):
        if label in self.aims: self.words, self.flag = {}, None
        self.out.append(self.place(label) + ":\n")

    def do_goto(self, label):
        self.jump(label)
        self.flag = None

    def known(self, r, w=None):
        self.words.pop(r, None)
        if w is not None: self.words[r] = w
        if self.flag and self.flag[0] == r: self.flag = None

    def lost(self, r):
        self.words.pop(r, None)
        self.flag = None

    def opening(self):
        self.line("cmpq", "%r15", "%rsp")
        self.line("jb", ".Lfull")
        if self.size: self.line("subq", f"${8 * self.size}", "%rsp")
        for k, r in enumerate(self.saved): self.move(self.reg(r), self.cell(self.first_saved + k))
        for l, r in zip(self.parameters, PASS): self.put("%" + r, l)
        for j, l in enumerate(self.parameters[4:]):
            self.move(self.cell(self.size + 1 + j), self.reg(l[1]) if l[0] == "r" else "%eax")
            if l[0] == "s": self.move("%eax", self.slot(l[1]))

    def text(self):
        self.opening()
        for i in self.code: getattr(self, "do_" + i[0])(*i[1:])
        self.line("jmp", ".Lwrong")
        return f"f.{self.name}:\n" + "".join(self.out)


def door(prefix, name, count):
    over = "".join(f" pushq {8 * count}(%rsp)\n" for _ in range(count - 6)) + (" pushq %r9\n" if count > 5 else "") + (" pushq %r8\n" if count > 4 else "")
    drop = f" addq ${8 * (count - 4)}, %rsp\n" if count > 4 else ""
    return f" .globl {prefix}{name}\n{prefix}{name}:\n{KEPT}{over} call .Lenter\n call f.{name}\n{drop}{BACK}"


def variable(number, cells, words):
    rest = cells - len(words)
    return f"g.{number}:\n" + "".join(f" .long {signed(w)}\n" for w in words) + (f" .zero {4 * rest}\n" if rest else "")


def text_of(data, prefix=None):
    variables, functions = program(data)
    if prefix is None:
        begins = " call f.main\n" if any(f[0] == "main" and not f[1] for f in functions) else " jmp .Lwrong\n"
        doors = f" .globl main\nmain:\n{KEPT} call .Lenter\n{begins}{RESULT}{BACK}"
    else: doors = "".join(door(prefix, f[0], len(f[1])) for f in functions)
    code = "".join(Writer(variables, functions, n).text() for n in range(len(functions)))
    return doors + code + ROUTINES + "".join(variable(n, *v) for n, v in enumerate(variables)) + NOTE


def header_of(data, prefix):
    """The header of C that declares each function under the prefix."""
    lines = [f"#ifndef {prefix}0_HEADER", f"#define {prefix}0_HEADER"]
    for name, parameters, _, code in program(data)[1]:
        gives = any(i[0] == "return" and i[1] is not None for i in code)
        lines.append(f"{'unsigned' if gives else 'void'} {prefix}{name}({', '.join('unsigned' for _ in parameters) or 'void'});")
    return "\n".join(lines + ["#endif", ""])


if __name__ == "__main__":
    with open(sys.argv[1], "rb") as file: data = file.read()
    sys.stdout.write(header_of(data, sys.argv[2]) if sys.argv[3:] == ["--header"] else text_of(data, *sys.argv[2:3]))
