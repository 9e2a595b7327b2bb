#!/usr/bin/env python3
"""Where programs go wrong and why, told by a second interpreter, which knows docs/LANGUAGE.md and the places of a text.

    tests/outside/faults.py COUNT SEED    draws programs until each cause has so many that go wrong by it, and compares what
                                          `interpret --explain` tells of each, with its output and status
    tests/outside/faults.py --rows        prints the rows of crates/worked_rows/data/commands.txt with drawn programs
    tests/outside/faults.py --compare     compares the rows that stand there with those
    tests/outside/faults.py --of FILE [DEPTH]    prints what this interpreter tells of a program

The built program is crates/cfarm/out/cfarm, or what CFARM names. A place is that of the operator, of the name that is read or indexed, of the
brace that ends a function, and of the name that is called. Of two parts without a value the first in the text is told.
"""
import os
import random
import re
import subprocess
import sys
import tempfile

ROOT = os.path.dirname(os.path.dirname(os.path.dirname(os.path.realpath(__file__))))
ROWS = os.path.join(ROOT, "crates", "worked_rows", "data", "commands.txt")
HEADING = "# interpret --explain of drawn programs, by a second interpreter"
TOKEN = re.compile(
    r"(?P<blank>\s+|//[^\n]*|/\*.*?\*/)|(?P<name>[A-Za-z_]\w*)|(?P<number>(?:0[xX][0-9a-fA-F]+|\d+)[uU]?)|(?P<char>'(?:\\.|[^\\'])')"
    r"|(?P<sign><<=|>>=|\+\+|--|<<|>>|<=|>=|==|!=|&&|\|\||[-+*/%&|^]=|[-+*/%&|^~!<>=?:;,(){}\[\]])",
    re.S,
)
ESCAPES = {"n": 10, "t": 9, "0": 0, "\\": 92, "'": 39, '"': 34}
LEVELS = (("||",), ("&&",), ("|",), ("^",), ("&",), ("==", "!="), ("<", ">", "<=", ">="), ("<<", ">>"), ("+", "-"), ("*", "/", "%"))
CHANGES = ("*=", "/=", "%=", "+=", "-=", "<<=", ">>=", "&=", "^=", "|=")
TOLD_CALLS = 16
STANDARD_DEPTH = 100000
MASK = 2**32 - 1


class Wrong(Exception):
    """The first part without a value: the kind of its cause, the sentence, its offset, and the calls under way."""

    def __init__(self, kind, sentence, offset):
        super().__init__(sentence)
        self.kind, self.sentence, self.offset = kind, sentence, offset


class Spent(Exception):
    """The bound was reached."""


def signed(word):
    return word - 2**32 if word >= 2**31 else word


def both(word):
    """A word that may be `unsigned` or an `int`."""
    return f"{signed(word)} (unsigned {word})" if word >= 2**31 else str(word)


class Reader:
    """A tree of a text that is accepted, by the grammar; each part has its offset."""

    def __init__(self, text):
        self.tokens = []
        at = 0
        while at < len(text):
            found = TOKEN.match(text, at)
            if found.lastgroup != "blank":
                self.tokens.append((found.lastgroup, found.group(), at))
            at = found.end()
        self.tokens.append(("end", "", len(text)))
        self.next = 0
        self.globals, self.functions = {}, {}
        while self.kind() != "end":
            self.declaration()

    def kind(self):
        return self.tokens[self.next][0]

    def word(self, ahead=0):
        return self.tokens[self.next + ahead][1]

    def offset(self):
        return self.tokens[self.next][2]

    def take(self, word=None):
        token = self.tokens[self.next]
        assert word is None or token[1] == word, (token, word)
        self.next += 1
        return token[1]

    def takes(self, word):
        if self.word() != word:
            return False
        self.next += 1
        return True

    def type(self):
        kind = self.take()
        if kind == "unsigned":
            self.takes("int")
        return kind

    def declaration(self):
        kind, name = self.type(), self.take()
        if not self.takes("("):
            self.globals[name] = self.global_variable(kind)
            return
        parameters = []
        if self.word() == "void":
            self.take()
        else:
            while True:
                one = self.type()
                parameters.append((one, self.take() if self.kind() == "name" else None))
                if not self.takes(","):
                    break
        self.take(")")
        if self.takes(";"):
            return
        body, end = self.block()
        self.functions[name] = (kind, parameters, body, end)

    def global_variable(self, kind):
        size, first = None, []
        if self.takes("["):
            size = self.expression()[2]
            self.take("]")
        if self.takes("="):
            if self.takes("{"):
                first.append(self.expression())
                while self.takes(","):
                    first.append(self.expression())
                self.take("}")
            else:
                first.append(self.expression())
        self.take(";")
        return kind, size, first

    def block(self):
        self.take("{")
        parts = []
        while self.word() != "}":
            parts.append(self.statement())
        end = self.offset()
        self.take()
        return parts, end

    def given(self):
        """An expression or a call."""
        if self.kind() == "name" and self.word(1) == "(":
            offset, name = self.offset(), self.take()
            self.take("(")
            arguments = []
            if self.word() != ")":
                arguments.append(self.expression())
                while self.takes(","):
                    arguments.append(self.expression())
            self.take(")")
            return "call", offset, name, arguments
        return self.expression()

    def place(self):
        offset, name = self.offset(), self.take()
        if self.takes("["):
            index = self.expression()
            self.take("]")
            return "index", offset, name, index
        return "name", offset, name

    def setting(self):
        """An assignment or a change."""
        if self.word() in ("++", "--"):
            offset, sign = self.offset(), self.take()
            return "change", self.place(), sign[0], offset, ("number", offset, 1, "int")
        place = self.place()
        offset, sign = self.offset(), self.take()
        if sign in ("++", "--"):
            return "change", place, sign[0], offset, ("number", offset, 1, "int")
        if sign == "=":
            return "set", place, self.given()
        assert sign in CHANGES, sign
        return "change", place, sign[:-1], offset, self.expression()

    def local(self):
        kind = self.type()
        offset, name = self.offset(), self.take()
        return "local", kind, name, self.given() if self.takes("=") else None

    def statement(self):
        word = self.word()
        if word == "{":
            return "block", self.block()[0]
        if self.takes(";"):
            return ("block", [])
        if word in ("int", "unsigned"):
            part = self.local()
        elif self.takes("if"):
            self.take("(")
            condition = self.expression()
            self.take(")")
            chosen = self.statement()
            return "if", condition, chosen, self.statement() if self.takes("else") else ("block", [])
        elif self.takes("while"):
            self.take("(")
            condition = self.expression()
            self.take(")")
            return "while", condition, self.statement(), None
        elif self.takes("do"):
            body = self.statement()
            self.take("while")
            self.take("(")
            part = ("do", self.expression(), body)
            self.take(")")
        elif self.takes("for"):
            self.take("(")
            begun = None if self.word() == ";" else self.local() if self.word() in ("int", "unsigned") else self.setting()
            self.take(";")
            condition = None if self.word() == ";" else self.expression()
            self.take(";")
            step = None if self.word() == ")" else self.setting()
            self.take(")")
            return "for", begun, condition, step, self.statement()
        elif word in ("break", "continue"):
            part = (self.take(),)
        elif self.takes("return"):
            part = ("return", None if self.word() == ";" else self.given())
        elif self.kind() == "name" and self.word(1) == "(":
            part = ("drop", self.given())
        else:
            part = self.setting()
        self.take(";")
        return part

    def expression(self):
        condition = self.level(0)
        offset = self.offset()
        if not self.takes("?"):
            return condition
        first = self.expression()
        self.take(":")
        return "choice", offset, condition, first, self.expression()

    def level(self, level):
        if level == len(LEVELS):
            return self.unary()
        left = self.level(level + 1)
        while self.word() in LEVELS[level]:
            offset, sign = self.offset(), self.take()
            left = ("two", offset, sign, left, self.level(level + 1))
        return left

    def unary(self):
        offset, word = self.offset(), self.word()
        if word in ("-", "+", "~", "!"):
            self.take()
            return "one", offset, word, self.unary()
        if word == "(" and self.word(1) in ("int", "unsigned"):
            self.take()
            kind = self.type()
            self.take(")")
            return "cast", offset, kind, self.unary()
        if self.takes("("):
            inner = self.expression()
            self.take(")")
            return inner
        if self.kind() == "char":
            text = self.take()[1:-1]
            return "number", offset, ESCAPES[text[1]] if text[0] == "\\" else ord(text), "int"
        if self.kind() == "number":
            text = self.take().lower()
            digits = text.rstrip("u")
            value = int(digits, 16 if digits[:2] == "0x" else 8 if digits[0] == "0" else 10)
            return "number", offset, value, "unsigned" if text[-1] == "u" or value >= 2**31 else "int"
        return self.place()


def common(a, b):
    return "unsigned" if "unsigned" in (a, b) else "int"


def operator(sign, kind, x, y, offset):
    """The word of an operator on two words of this type, or of a shift whose left one has it."""
    left = x if kind == "unsigned" else signed(x)
    if sign in ("<<", ">>"):
        if y >= 32:
            raise Wrong("shift", f"{left} {sign} {both(y)} shifts by no number from 0 to 31", offset)
        if sign == ">>":
            return left >> y & MASK
        if left < 0:
            raise Wrong("left", f"{left} << {y} shifts a negative number to the left", offset)
        exact = left << y
    elif sign in ("/", "%"):
        right = y if kind == "unsigned" else signed(y)
        if right == 0:
            raise Wrong("zero", f"{left} {sign} 0 divides by zero", offset)
        quotient = abs(left) // abs(right) * (1 if (left < 0) == (right < 0) else -1)
        exact = quotient if sign == "/" or not -(2**31) <= quotient < 2**31 else left - quotient * right
    else:
        right = y if kind == "unsigned" else signed(y)
        exact = {"+": left + right, "-": left - right, "*": left * right, "&": x & y, "|": x | y, "^": x ^ y}[sign]
    if kind == "unsigned" or sign in "&|^":
        return exact & MASK
    if not -(2**31) <= exact < 2**31:
        raise Wrong("range", f"{left} {sign} {signed(y)} is out of int's range", offset)
    return exact & MASK


class Run:
    """A run of a tree at a bound."""

    def __init__(self, text, depth):
        self.text, self.tree = text, Reader(text)
        self.printed, self.calls, self.steps = bytearray(), [], 0
        self.cells = {}
        self.scopes = [{}]
        for name, (_, size, first) in self.tree.globals.items():
            words = [self.value(one)[0] for one in first]
            self.cells[name] = words + [0] * ((size or 1) - len(words))
        self.depth = depth

    def told(self):
        """The output, the status, and what stands on standard error."""
        try:
            word = self.body("main", [], self.depth)
            return bytes(self.printed), 0, f"ended {signed(word)}\n"
        except Spent:
            hint = f"stopped at {self.depth:,} turns and calls in one another; --depth N allows more, --depth none all"
            return bytes(self.printed), 6, f"running\n{hint}\n"
        except Wrong as fault:
            return bytes(self.printed), 5, f"wrong\nf:{self.at(fault.offset)}: error: {fault.sentence}\n{self.stack()}\n"

    def at(self, offset):
        front = self.text[:offset]
        return f"{front.count(chr(10)) + 1}:{offset - front.rfind(chr(10))}"

    def stack(self):
        """The function that runs and the calls, the innermost first."""
        names = [name for name, _ in self.calls]
        line = f"in {names[-1]}"
        callers = list(zip(reversed(names[:-1]), reversed([offset for _, offset in self.calls[1:]])))
        for name, offset in callers[:TOLD_CALLS]:
            line += f", called at {self.at(offset)}, in {name}"
        more = len(callers) - TOLD_CALLS
        return line + (f", and {more} calls more" if more > 0 else "")

    def body(self, name, words, depth, offset=None):
        kind, parameters, statements, end = self.tree.functions[name]
        self.calls.append((name, offset))
        kept = self.scopes
        self.scopes = [{one: [word, kind] for (kind, one), word in zip(parameters, words)}]
        left = self.all(statements, depth)
        if left is None and name != "main" and kind != "void":
            raise Wrong("return", "a function with a value ends here and returns none", end)
        self.scopes = kept
        self.calls.pop()
        return 0 if left is None else left[1]

    def variable(self, name):
        for scope in reversed(self.scopes):
            if name in scope:
                return scope[name]
        return None

    def kind_of(self, part):
        """The type of an expression."""
        if part[0] == "number":
            return part[3]
        if part[0] in ("name", "index"):
            local = self.variable(part[2])
            return local[1] if local else self.tree.globals[part[2]][0]
        if part[0] == "cast":
            return part[2]
        if part[0] == "one":
            return "int" if part[2] == "!" else self.kind_of(part[3])
        if part[0] == "choice":
            return common(self.kind_of(part[3]), self.kind_of(part[4]))
        if part[2] in ("<<", ">>"):
            return self.kind_of(part[3])
        if part[2] in ("&&", "||", "==", "!=", "<", ">", "<=", ">="):
            return "int"
        return common(self.kind_of(part[3]), self.kind_of(part[4]))

    def value(self, part):
        """The word of an expression, and its type."""
        return self.word(part), self.kind_of(part)

    def word(self, part):
        form, offset = part[0], part[1]
        if form == "number":
            return part[2]
        if form in ("name", "index"):
            return self.read(part)
        if form == "cast":
            return self.word(part[3])
        if form == "choice":
            return self.word(part[3] if self.word(part[2]) else part[4])
        if form == "one":
            return self.one(part[2], offset, *self.value(part[3]))
        sign, a, b = part[2:]
        if sign in ("&&", "||"):
            first = self.word(a) != 0
            return int(self.word(b) != 0) if first == (sign == "&&") else int(first)
        x, y = self.word(a), self.word(b)
        kind = self.kind_of(a) if sign in ("<<", ">>") else common(self.kind_of(a), self.kind_of(b))
        if sign in ("==", "!=", "<", ">", "<=", ">="):
            p, q = (x, y) if kind == "unsigned" else (signed(x), signed(y))
            return int({"==": p == q, "!=": p != q, "<": p < q, ">": p > q, "<=": p <= q, ">=": p >= q}[sign])
        return operator(sign, kind, x, y, offset)

    def one(self, sign, offset, word, kind):
        if sign == "-" and kind == "int" and word == 2**31:
            raise Wrong("one", f"-({signed(word)}) is out of int's range", offset)
        return {"-": -word & MASK, "+": word, "~": ~word & MASK, "!": int(word == 0)}[sign]

    def read(self, place):
        local = self.variable(place[2])
        if local is None:
            return self.cells[place[2]][self.cell(place)]
        if local[0] is None:
            raise Wrong("unset", f"{place[2]} is read before it is set", place[1])
        return local[0]

    def cell(self, place):
        """Which cell of a global a place is."""
        if place[0] == "name":
            return 0
        index, size = self.word(place[3]), len(self.cells[place[2]])
        if index >= size:
            raise Wrong("index", f"index {both(index)} is not below {size}, the size of {place[2]}", place[1])
        return index

    def given(self, part, depth):
        """The word of an expression or of a call."""
        if part[0] != "call":
            return self.word(part)
        words = [self.word(one) for one in part[3]]
        if part[2] == "putchar":
            self.printed.append(words[0] & 255)
            return words[0] & 255
        if depth == 0:
            raise Spent
        return self.body(part[2], words, depth - 1, part[1])

    def put(self, place, cell, word):
        local = self.variable(place[2])
        if local is None:
            self.cells[place[2]][cell] = word
        else:
            local[0] = word

    def change(self, place, sign, offset, value):
        local = self.variable(place[2])
        cell = self.cell(place) if local is None else 0
        old = self.read(place) if local is not None else self.cells[place[2]][cell]
        word = self.word(value)
        kind = self.kind_of(place)
        if sign not in ("<<", ">>"):
            kind = common(kind, self.kind_of(value))
        self.put(place, cell, operator(sign, kind, old, word, offset))

    def all(self, parts, depth):
        for part in parts:
            left = self.done(part, depth)
            if left:
                return left
        return None

    def done(self, part, depth):
        """Does a statement: nothing where it falls through, else how it is left."""
        self.steps += 1
        if self.steps > 20000:
            raise Spent
        form = part[0]
        if form == "block":
            self.scopes.append({})
            left = self.all(part[1], depth)
            self.scopes.pop()
            return left
        if form == "local":
            _, kind, name, value = part
            self.scopes[-1][name] = local = [None, kind]
            if value:
                local[0] = self.given(value, depth)
        elif form == "set":
            cell = self.cell(part[1]) if part[1][0] == "index" else 0
            self.put(part[1], cell, self.given(part[2], depth))
        elif form == "change":
            self.change(*part[1:])
        elif form == "drop":
            self.given(part[1], depth)
        elif form == "if":
            return self.done(part[2] if self.word(part[1]) else part[3], depth)
        elif form == "while":
            return self.turns(part[1], part[2], None, depth)
        elif form == "do":
            return self.turns_until(part[1], part[2], depth)
        elif form == "for":
            self.scopes.append({})
            if part[1]:
                self.done(part[1], depth)
            left = self.turns(part[2], part[4], part[3], depth)
            self.scopes.pop()
            return left
        elif form == "return":
            return "return", self.given(part[1], depth) if part[1] else None
        else:
            return (form,)
        return None

    def turns(self, condition, body, step, depth):
        while True:
            if depth == 0:
                raise Spent
            depth -= 1
            if condition and not self.word(condition):
                return None
            left = self.done(body, depth)
            if left and left[0] == "break":
                return None
            if left and left[0] == "return":
                return left
            if step:
                self.done(step, depth)

    def turns_until(self, condition, body, depth):
        while True:
            if depth == 0:
                raise Spent
            depth -= 1
            left = self.done(body, depth)
            if left and left[0] == "break":
                return None
            if left and left[0] == "return":
                return left
            if not self.word(condition):
                return None


def outcome(text, depth=STANDARD_DEPTH):
    """What is told of a text, and the kind of its cause, if it goes wrong."""
    run = Run(text, depth)
    told = run.told()
    kind = None
    if told[1] == 5:
        kind = next(name for name, sentence in KINDS.items() if re.search(sentence, told[2].split("\n")[1]))
    return told, kind


KINDS = {
    "an index": r"error: index ",
    "unset": r"is read before it is set$",
    "no return": r"returns none$",
    "division": r" 0 divides by zero$",
    "shift": r" shifts by no number",
    "left": r" shifts a negative number",
    "one": r"error: -\(-",
    "sum": r" [-+] -?\d+ is out of int's range$",
    "product": r" \* -?\d+ is out of int's range$",
    "quotient": r" [/%] -1 is out of int's range$",
    "power": r" << \d+ is out of int's range$",
}


# Expressions that go wrong by each cause that has one; `e` is any expression, `a` an array, `n` a number that is no index of it.
GOING_WRONG = {
    "an index": ("{a}[{n}]", "{a}[-1]", "{a}[{n}u-0x80000000]", "{a}[{a}[{n}]]"),
    "division": ("({e}/0)", "({e}%(1-1))", "(7u/0)", "({e}%0u)"),
    "shift": ("({e}<<32)", "({e}>>-1)", "(1u<<{n}2u)", "({e}>>2147483647)"),
    "left": ("((-7)<<3)", "(-1<<(({e})&7))", "(~0<<1u)"),
    "one": ("(-(~2147483647))", "(- -(-2147483647-1))", "(-(1?~2147483647:{e}))"),
    "sum": ("(2147483647+{n})", "(-2147483647-{n}7)", "(~2147483647-(-1<0))", "({n}-(~2147483647))"),
    "product": ("(65536*65536)", "((-65537)*65536)", "(~2147483647*-1)"),
    "quotient": ("(~2147483647/-1)", "((-2147483647-1)%(0-1))"),
    "power": ("(1<<31)", "(65536<<15)", "(3<<({n}|30))"),
}


class Drawn:
    """A program drawn from the front to the end, in which anything may go wrong, by one cause more often; in one line or in many."""

    def __init__(self, words, is_short, kind):
        self.words, self.is_short, self.wrongs = words, is_short, GOING_WRONG.get(kind, ())
        self.count, self.locals, self.functions = 0, [], []
        self.arrays = [(f"a{n}", words.randrange(1, 6)) for n in range(words.randrange(1, 3))]
        self.globals = [f"g{n}" for n in range(words.randrange(0, 2))]

    def name(self, front):
        self.count += 1
        return f"{front}{self.count}"

    def kind(self):
        return self.words.choice(("int", "int", "unsigned"))

    def number(self):
        return self.words.choice(
            ("0", "1", "2", "3", "7", "31", "32", "40", "'a'", "65536", "2147483647", "0x7fffffff", "4294967295u", "5u", "(-1)", "(-7)", "(-2147483647-1)", "017")
        )

    def blank(self):
        return "" if self.is_short else self.words.choice(("", "", "", " ", " ", "  ", "/* */ ", "\n\t", "\n  "))

    def variable(self):
        words = self.words
        if self.locals and words.random() < 0.75:
            return words.choice(self.locals)
        if self.globals and words.random() < 0.4:
            return words.choice(self.globals)
        return f"{words.choice(self.arrays)[0]}[{self.expression(1)}]"

    def expression(self, height):
        words = self.words
        if self.wrongs and words.random() < 0.1:
            array, size = words.choice(self.arrays)
            return words.choice(self.wrongs).format(e=self.number(), a=array, n=size + words.randrange(3))
        if height <= 0 or words.random() < 0.2:
            return self.variable() if words.random() < 0.5 and (height > 0 or self.locals) else self.number()
        shape = words.randrange(10)
        if shape == 0:
            return f"{words.choice('-~!+')}{self.blank()}({self.expression(height - 1)})"
        if shape == 1:
            return f"({self.expression(height - 1)}{self.blank()}?{self.blank()}{self.expression(height - 1)}:{self.expression(height - 1)})"
        if shape == 2:
            return f"(({self.kind()}){self.blank()}({self.expression(height - 1)}))"
        if shape == 3:
            return f"({self.expression(height - 1)}{words.choice(('&&', '||'))}{self.blank()}{self.expression(height - 1)})"
        sign = words.choice(("+", "-", "*", "/", "%", "/", "<<", ">>", "<<", "<", "==", "!=", ">=", "&", "|", "^"))
        return f"({self.expression(height - 1)}{self.blank()} {sign} {self.blank()}{self.expression(height - 1)})"

    def call(self):
        name, count = self.words.choice(self.functions)
        return f"{name}({','.join(self.blank() + self.expression(1) for _ in range(count))})"

    def given(self):
        if self.functions and self.words.random() < 0.4:
            return self.call()
        return self.expression(2)

    def change(self):
        words = self.words
        place = self.variable()
        shape = words.randrange(4)
        if shape == 0:
            return place + self.blank() + words.choice(("++", "--"))
        if shape == 1:
            return words.choice(("++", "--")) + self.blank() + place
        return f"{place}{self.blank()} {words.choice(CHANGES)} {self.expression(1)}"

    def statement(self, height):
        words = self.words
        shape = words.randrange(14)
        if shape < 3:
            kind, name = self.kind(), self.name("x")
            text = f"{kind} {name};" if words.random() < 0.3 else f"{kind} {name}={self.given()};"
            self.locals.append(name)
            return text
        if shape < 5:
            place = self.variable()
            return f"{place}{self.blank()}={self.expression(2) if place.endswith(']') else self.given()};"
        if shape < 7:
            return f"{self.change()};"
        if shape == 7:
            return f"putchar('a'+{words.randrange(26)});"
        if shape == 8 and self.functions:
            return f"{self.call()};"
        if height == 0:
            return ";"
        if shape == 9:
            return f"while({self.expression(1)}){{{self.some(height - 1, 2)}if({self.expression(1)})break;}}"
        if shape == 10:
            name = self.name("i")
            kept = len(self.locals)
            self.locals.append(name)
            text = f"for(int {name}=0;{name}<{words.randrange(1, 5)};{words.choice((f'{name}++', f'++{name}', f'{name}+=1'))}){{{self.some(height - 1, 2)}}}"
            del self.locals[kept:]
            return text
        if shape == 11:
            return f"do{{{self.some(height - 1, 2)}}}while({self.expression(1)});"
        text = f"if({self.expression(1)}){{{self.some(height - 1, 2)}}}"
        return text + f"else{{{self.some(height - 1, 1)}}}" if words.random() < 0.4 else text

    def some(self, height, most):
        kept = len(self.locals)
        parts = [self.blank() + self.statement(height) for _ in range(self.words.randrange(1, most + 1))]
        del self.locals[kept:]
        return "".join(parts)

    def body(self, most):
        parts = [self.blank() + self.statement(0 if self.is_short else 2) for _ in range(self.words.randrange(1, most + 1))]
        end = f"return {self.given()};" if self.words.random() < 0.7 else ""
        return "{" + "".join(parts) + end + self.blank() + "}"

    def text(self):
        words, line = self.words, "" if self.is_short else "\n"
        parts = ["int putchar(int);"]
        parts += [f"{self.kind()} {name}={words.choice(('0', '5', '2147483647', '-1'))};" for name in self.globals]
        parts += [f"{self.kind()} {name}[{size}]={{{words.choice(('0', '3', '-1', '31'))}}};" for name, size in self.arrays]
        for _ in range(words.randrange(0, 2 if self.is_short else 4)):
            name, count = self.name("f"), words.randrange(0, 3)
            self.locals = [self.name("p") for _ in range(count)]
            given = ",".join(f"{self.kind()} {one}" for one in self.locals) or "void"
            parts.append(f"{words.choice(('int', 'int', 'unsigned'))} {name}({given}){self.body(2 if self.is_short else 4)}")
            self.functions.append((name, count))
        self.locals = []
        parts.append(f"int main(void){self.body(3 if self.is_short else 6)}")
        return line.join(parts) + line


def drawn(words, each, most=4000, is_short=None):
    """Programs that go wrong, as many by each cause, with what is told of them."""
    left = {kind: each for kind in KINDS}
    while any(left.values()):
        wanted = words.choice([kind for kind in KINDS if left[kind]])
        text = Drawn(words, words.random() < 0.4 if is_short is None else is_short, wanted).text()
        if len(text) > most:
            continue
        told, kind = outcome(text)
        if kind and left[kind]:
            left[kind] -= 1
            yield text, told


RECURSION = "int f(int n){{{front}int x=f(n-1);return x+1;}}\nint main(void)\n{{\n\tint y=f({count});\n\treturn y;\n}}\n"

CHOSEN = (
    # of two parts the first in the text, though both have no value
    "int a[2];int main(void){int x;return x/0+a[7];}",
    "int a[2];int main(void){int x;return a[7]>x;}",
    "int a[2];int main(void){int x;a[x]=a[9];return 0;}",
    "int a[2];int main(void){a[2]=1/0;return 0;}",
    "int a[2];int main(void){a[1]/=a[1]+a[0];return 0;}",
    "int a[2];int main(void){a[a[1]+2]+=1/a[0];return 0;}",
    # what is not evaluated is not told
    "int main(void){int x=0;return x&&1/x||!x&&1%x;}",
    "int main(void){int x=0;return x?1/x:x<0?2/x:3%x;}",
    "int main(void){int x=0;if(x==0||1/x)x=5>>(x-1);return x;}",
    # a local while its initializer is evaluated, and each time its declaration is reached
    "int main(void){int x=x+1;return 0;}",
    "int main(void){for(int i=0;i<2;i++){int x;if(i)return x;x=3;}return 0;}",
    "int x=3;int main(void){int x;{int x=4;x++;}return x;}",
    # conditions, heads and steps
    "int main(void){int i=3;while(12/i>1)i--;return 0;}",
    "int main(void){int i=2;do i--;while(1/i);return 0;}",
    "int a[3];int main(void){for(int i=0;;i++)a[i]=i;return 0;}",
    "int main(void){for(int i=2147483646;i;i++);return 0;}",
    "int main(void){for(int i=1;i>0;i<<=1);return 0;}",
    "int main(void){for(unsigned i=1u/0u;i;i--);return 0;}",
    # calls: arguments, results, and what is under way
    "int f(int x,int y){return x;}int main(void){int z;f(1,z);return 0;}",
    "int f(int x){if(x)return 1;}int main(void){int y=f(1);y=f(y-1);return y;}",
    "int f(int x){return 6%x;}int g(int x){return f(x-1);}int main(void){int y=g(2);y=g(y+1);return y;}",
    "int putchar(int);void p(int x){putchar('a'+x);int y=putchar('z'-x);p(x*65536);}int main(void){p(1);p(2);return 0;}",
    "unsigned f(unsigned x){x-=4;x%=x+1;return x;}int main(void){return f(3);}",
    "int f(int n){int x=f(n/(n-1));return x;}int main(void){f(9);return 0;}",
)


def chosen():
    """Programs that were written, among them calls in calls, as many as are told, and one more."""
    for text in CHOSEN:
        yield text, outcome(text)[0]
    for count in (15, 16, 40):
        text = RECURSION.format(front="if(n==0)return 1/n;", count=count)
        yield text, outcome(text)[0]


def row(text, told):
    """A row of the commands; a text of many lines is in hex."""
    printed, status, errors = told
    shown = f"%{text.encode().hex()}" if "\n" in text else text
    return f'run interpret f --explain < {shown} => {status} "{printed.decode()}" "{errors[:-1]}\\n"'.replace("\n", "\\n")


def rows():
    yield HEADING
    for text, told in chosen():
        yield row(text, told)
    for each, most, is_short in ((3, 140, True), (2, 300, False)):
        for text, told in drawn(random.Random(most), each, most, is_short):
            yield row(text, told)


def compare():
    with open(ROWS) as file:
        stored = file.read().splitlines()
    at = stored.index(HEADING)
    stands = [HEADING]
    for line in stored[at + 1 :]:
        if line.startswith("#"):
            break
        stands.append(line)
    made = list(rows())
    bad = [one for one in made if one not in stands] + [one for one in stands if one not in made]
    print("\n".join(bad + [f"{len(made) - 1} rows, {len(bad)} differ"]))
    return bool(bad)


def tried(each, seed):
    """What the built program tells of drawn programs."""
    program = os.environ.get("CFARM", os.path.join(ROOT, "crates", "cfarm", "out", "cfarm"))
    count = bad = 0
    with tempfile.TemporaryDirectory() as folder:
        for text, told in [*chosen(), *drawn(random.Random(seed), each)]:
            with open(os.path.join(folder, "f"), "w") as file:
                file.write(text)
            run = subprocess.run([program, "interpret", "f", "--explain"], cwd=folder, stdin=subprocess.DEVNULL, capture_output=True, check=False)
            count += 1
            if (run.stdout, run.returncode, run.stderr.decode()) != told:
                bad += 1
                print(f"{text}\nis told as {run.stdout} {run.returncode}\n{run.stderr.decode()}and not as {told[0]} {told[1]}\n{told[2]}")
    print(f"{count} programs, {bad} told otherwise")
    return bool(bad)


def main():
    words = sys.argv[1:]
    if words == ["--rows"]:
        print("\n".join(rows()))
    elif words == ["--compare"]:
        sys.exit(compare())
    elif len(words) in (2, 3) and words[0] == "--of":
        with open(words[1]) as file:
            print(*outcome(file.read(), int(words[2]) if words[2:] else STANDARD_DEPTH)[0], sep="\n", end="")
    elif len(words) == 2 and all(word.isdigit() for word in words):
        sys.exit(tried(*map(int, words)))
    else:
        sys.exit(__doc__)


if __name__ == "__main__":
    main()
