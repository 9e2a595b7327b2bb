#!/usr/bin/env python3
"""cfarm.py LIBRARY COMMAND FILE..: a command of cfarm by the library, libcfarm.so: check, interpret, exec, show, sim, emit FILE; verify TEXT PROGRAM BUNDLE; version.

As a module: Cfarm(path) has a method for each, which gives the status, what is written and what is told."""
import ctypes
import sys


class Answer(ctypes.Structure):
    _fields_ = [("bytes", ctypes.c_void_p), ("length", ctypes.c_size_t), ("written", ctypes.c_size_t)]


FORMS = ["cminor", "rtl", "ltl", "linear", "bundle"]


class Cfarm:
    def __init__(self, path):
        self.library = ctypes.CDLL(path)
        self.empty = ctypes.create_string_buffer(1)
        self.library.rattle_dealloc.restype = None

    def call(self, name, *words):
        """The answer of a function: bytes go as a pointer and a length, other words as they are."""
        answer = Answer(ctypes.addressof(self.empty), 0, 0)
        passed = []
        for word in words:
            passed += [ctypes.c_char_p(word), ctypes.c_size_t(len(word))] if isinstance(word, bytes) else [word]
        function = getattr(self.library, f"cfarm_{name}")
        function.restype = ctypes.c_uint32
        status = function(*passed, ctypes.byref(answer))
        told = ctypes.string_at(answer.bytes, answer.length)
        if answer.length:
            self.library.rattle_dealloc(ctypes.c_void_p(answer.bytes))
        return status, told[: answer.written], told[answer.written :]

    def check(self, text):
        return self.call("check", text)

    def interpret(self, text, depth=100_000):
        return self.call("interpret", text, ctypes.c_uint32(depth))

    def exec(self, program, limit=1_000_000, expected=None):
        return self.call("exec", program, ctypes.c_uint64(limit), ctypes.c_uint32(expected is not None), ctypes.c_int32(expected or 0))

    def emit(self, text, form="linear", seed=None):
        number = FORMS.index(form) if form in FORMS else form
        return self.call("emit", text, ctypes.c_uint32(number), ctypes.c_uint32(seed is not None), ctypes.c_uint64(seed or 0))

    def show(self, program):
        return self.call("show", program)

    def verify(self, text, program, bundle):
        return self.call("verify", text, program, bundle)

    def sim(self, schedule, drawing=False):
        return self.call("simulate", schedule, ctypes.c_uint32(drawing))

    def version(self):
        return self.call("version")


def main(words):
    if len(words) < 2 or words[1] not in "check interpret exec show sim emit verify version".split():
        print(__doc__, file=sys.stderr)
        return 2
    files = []
    for path in words[2:]:
        with open(path, "rb") as file:
            files.append(file.read())
    status, written, told = getattr(Cfarm(words[0]), words[1])(*files)
    sys.stdout.buffer.write(written)
    sys.stderr.buffer.write(told)
    return status


if __name__ == "__main__":
    sys.exit(main(sys.argv[1:]))
