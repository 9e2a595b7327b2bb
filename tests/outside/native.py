#!/usr/bin/env python3
"""Native code: what `native` writes, what gcc makes of it, and what that does: native.py [--program PATH] [--drawn N] [PART..]

texts: of each example, of divisions and products by constants and of drawn programs, built by three nodes, drawn and for speed: the text is that of a second writer
(native_text.py), on standard output, in a file, and under a prefix, and so is its header; and what gcc makes of it, also static and at a fixed place,
prints and ends as `exec` tells.
wrong: programs that go wrong behind an output: that output, `wrong`, status 5.
deep: calls in one another under small stacks: the answer, or `memory` and status 7, never a signal.
full: an output that takes nothing: `write 701`, status 4.
exports: functions with up to ten parameters, and main, called from C by their header, in a library whose globals stay between calls.
refused: bytes that spell no program are refused as `exec` refuses them; prefixes that are no C names; and paths that are kept.

It prints what is wrong, and counts; its status is 1 where something was."""
import argparse
import glob
import os
import random
import resource
import subprocess
import sys
import tempfile

import draw_programs
import native_text

ROOT = os.path.dirname(os.path.dirname(os.path.dirname(os.path.realpath(__file__))))
BOUND = ["--limit", "9000000000000000000"]
PUT = "int putchar(int);"
WRONG = [
    PUT + "int main(void){int x=0;putchar('a');return 1/x;}", PUT + "int main(void){int x=0;putchar('a');return 1%x;}",
    PUT + "int main(void){unsigned x=0u;putchar('a');return 1u/x;}", PUT + "int a[3];int main(void){int i=3;putchar('a');putchar('b');return a[i];}",
    PUT + "int a[3];int main(void){int i=-1;putchar('a');a[i]=7;return 0;}", PUT + "int main(void){int i=32;putchar('a');return 1<<i;}",
    PUT + "int main(void){int i=-1;putchar('a');return 8>>i;}", PUT + "int main(void){int x=-2147483647-1;int y=-1;putchar('a');return x/y;}",
    PUT + "int main(void){int i=0;while(i<5000){putchar('a'+i%26);i=i+1;}return 1/(i-5000);}"]
DEEP = (PUT + "int d(int n,int a,int b,int c,int e,int f){int r;if(n==0)return a+b+c+e+f;r=d(n-1,b,c,e,f,a);return r+1;}"
        "int main(void){int r;putchar('x');r=d(%d,1,2,3,4,5);return r%%200;}")
SUMS = ("int total;int add(int a){total=total+a;return total;}unsigned eight(unsigned a,unsigned b,unsigned c,unsigned d,unsigned e,unsigned f,unsigned g,"
        "unsigned h){return a+3u*b+5u*c+7u*d+11u*e+13u*f+17u*g+19u*h;}int ten(int a,int b,int c,int d,int e,int f,int g,int h,int i,int j)"
        "{int r;r=add(j);return (a-b)+2*(c-d)+3*(e-f)+5*(g-h)+7*(i-j)+r-r;}void none(void){total=total+1;}int main(void){int r;r=add(5);return r;}")
DIVISORS = (1, 2, 3, 4, 6, 8, 255, 256, 257, 2**30, 2**31 - 1, 2**31, 2**31 + 1, 2**32 - 2, 2**32 - 1)
DIVIDED = (PUT + "unsigned u(unsigned n){unsigned s=n;" + "".join(f"s=31u*s+n/{d}u;s=31u*s+n%{d}u;s=31u*s+n*{d}u;" for d in DIVISORS) + "return s;}"
           "unsigned i(int n){unsigned s=(unsigned)n;" + "".join(f"s=31u*s+(unsigned)(n/{d});s=31u*s+(unsigned)(n%{d});" for d in DIVISORS if d < 2**31)
           + "return s;}"
           "int main(void){unsigned s=0u;unsigned n=1u;unsigned r;for(int t=0;t<64;t=t+1){n=n*2654435761u+(unsigned)t;r=u(n);s=31u*s+r;r=i((int)n);s=31u*s+r;"
           "putchar((int)(s%256u));}for(int t=0;t<520;t=t+1){r=i(t-260);s=31u*s+r;}r=i(-2147483647-1);s=31u*s+r;r=i(-1073741824);s=31u*s+r;"
           "putchar((int)(s%256u));return (int)(s%100000u);}")
CALLER = """#include <stdio.h>
#include "library.h"
#include "library.h"
int main(void) {
    printf("%u ", t_eight(1, 20, 300, 4000, 50000, 600000, 7000000, 80000000));
    printf("%d ", t_ten(1, 2, 30, 40, 500, 600, 7000, 8000, 90000, 100000));
    t_none();
    printf("%d %d %d\\n", t_add(7), t_main(), t_add(-3));
    return 0;
}
"""


class Tried:
    def __init__(self, program, folder):
        self.program, self.folder, self.count, self.bad = program, folder, 0, 0

    def path(self, name): return os.path.join(self.folder, name)

    def put(self, name, text):
        with open(self.path(name), "wb") as file: file.write(text if isinstance(text, bytes) else text.encode())
        return self.path(name)

    def call(self, *words): return ran([self.program, *words])

    def same(self, what, is_so, wanted):
        self.count += 1
        if is_so != wanted:
            self.bad += 1
            print(f"{what}: {str(is_so)[:300]} instead of {str(wanted)[:300]}")

    def built(self, text, *options):
        """The path of the program that three nodes link."""
        folder = tempfile.mkdtemp(dir=self.folder)
        done = self.call("build", self.put("text.c", text), "--dir", folder, *options)
        assert done[0] == 0, (text, done)
        return os.path.join(folder, "linked.cfp")

    def made(self, path, *options):
        """What gcc makes of its text."""
        status, text, told = self.call("native", path)
        assert status == 0, told
        made = path + ".made"
        subprocess.run(["gcc", *options, self.put("text.s", text), "-o", made], check=True)
        return made


def ran(words, **more):
    done = subprocess.run(words, stdin=subprocess.DEVNULL, stdout=more.pop("stdout", subprocess.PIPE), stderr=subprocess.PIPE, check=False, **more)
    return done.returncode, done.stdout, done.stderr.decode()


def wanted(told):
    """What native code gives where `exec` gives this."""
    status, printed, line = told
    return (int(line.split()[1]) % 256, printed, "") if status == 0 else (status, printed, line)


def texts(tried, count):
    words = random.Random(7)
    given = []
    for path in sorted(glob.glob(os.path.join(ROOT, "examples", "*.c"))):
        with open(path, encoding="utf-8") as file: given.append((os.path.basename(path), file.read()))
    for number in range(count):
        drawn = (draw_programs.DrawnWithChanges if number % 2 else draw_programs.Drawn)(words)
        given.append((f"drawn {number}", drawn.program()))
    given.append(("divided", DIVIDED))
    for name, text in given:
        for way in ("drawn", "speed"):
            path = tried.built(text, "--optimise", way)
            with open(path, "rb") as file: data = file.read()
            for prefix in (None, "p_"):
                options = ["--export", prefix] if prefix else []
                written = native_text.text_of(data, prefix).encode()
                tried.same(f"{name} {way} text {prefix}", tried.call("native", path, *options), (0, written, ""))
                tried.same(f"{name} {way} put {prefix}", tried.call("native", path, "-o", tried.path("put.s"), *options), (0, b"", ""))
                with open(tried.path("put.s"), "rb") as file: tried.same(f"{name} {way} file {prefix}", file.read(), written)
            header = native_text.header_of(data, "p_").encode()
            tried.same(f"{name} {way} header", tried.call("native", path, "--header", "--export", "p_"), (0, header, ""))
            tried.same(f"{name} {way} put header", tried.call("native", path, "-o", tried.path("put.h"), "--header", "--export", "p_"), (0, b"", ""))
            with open(tried.path("put.h"), "rb") as file: tried.same(f"{name} {way} file header", file.read(), header)
            does = wanted(tried.call("exec", path, *BOUND))
            for options in ([], ["-static"], ["-no-pie"]) if not name.startswith("drawn") else ([],):
                tried.same(f"{name} {way} {options}", ran([tried.made(path, *options)]), does)


def wrong(tried, _count):
    for text in WRONG:
        for way in ("drawn", "speed"):
            path = tried.built(text, "--optimise", way)
            told = tried.call("exec", path, *BOUND)
            tried.same(text, told[0], 5)
            tried.same(text, ran([tried.made(path)]), wanted(told))


def deep(tried, _count):
    for depth in (10, 1000, 5000, 20000, 100000, 1000000):
        path = tried.built(DEEP % depth)
        answer, made = wanted(tried.call("exec", path, *BOUND)), tried.made(path)
        for size in (256 << 10, 1 << 20, 8 << 20, 64 << 20, 512 << 20):
            done = ran([made], preexec_fn=lambda limit=size: resource.setrlimit(resource.RLIMIT_STACK, (limit, limit)))
            tried.same(f"depth {depth} under {size}", done in (answer, (7, b"x", "memory\n")), True)
            if size >= 200 * depth + (1 << 20): tried.same(f"depth {depth} under {size}", done, answer)


def full(tried, _count):
    for text in (PUT + "int main(void){putchar('a');return 3;}", PUT + "int main(void){int i=0;while(i<100000){putchar('a');i=i+1;}return 3;}",
                 PUT + "int main(void){int x=0;putchar('a');return 1/x;}"):
        made = tried.made(tried.built(text))
        with open("/dev/full", "wb") as out: tried.same(text, ran([made], stdout=out), (4, None, "write 701\n"))


def exports(tried, _count):
    for way in ("drawn", "speed"):
        path = tried.built(SUMS, "--optimise", way)
        status, text, told = tried.call("native", path, "--export", "t_")
        assert status == 0, told
        status, header, told = tried.call("native", path, "--export", "t_", "--header")
        assert status == 0, told
        tried.put("library.h", header)
        caller, library, made = tried.put("caller.c", CALLER), tried.put("library.s", text), tried.path("called")
        for options in ([], ["-O2"], ["-static"]):
            subprocess.run(["gcc", "-Wall", "-Werror", "-Wno-format", *options, caller, library, "-o", made], check=True)
            values = [1, 20, 300, 4000, 50000, 600000, 7000000, 80000000]
            eight = sum(a * b for a, b in zip((1, 3, 5, 7, 11, 13, 17, 19), values)) % 2**32
            ten, total = -1 + 2 * -10 + 3 * -100 + 5 * -1000 + 7 * -10000, 100000
            tried.same(f"exports {way} {options}", ran([made])[:2] in [
                (0, f"{eight} {ten} {' '.join(str(n) for n in order)}\n".encode()) for order in orders(total + 1)], True)


def orders(total):
    """C leaves open in which order arguments are worked out."""
    steps = (7, 5, -3)
    for order in ((0, 1, 2), (2, 1, 0), (0, 2, 1), (1, 0, 2), (1, 2, 0), (2, 0, 1)):
        now, values = total, [0, 0, 0]
        for n in order:
            now += steps[n]
            values[n] = now
        yield values


def refused(tried, count):
    words = random.Random(8)
    path = tried.built(SUMS)
    with open(path, "rb") as file: data = file.read()
    for number in range(20 + 5 * count):
        changed = bytearray(data)
        if number % 3 == 0: del changed[words.randrange(len(data)):]
        elif number % 3 == 1: changed[words.randrange(len(data))] = words.randrange(256)
        else: changed.append(words.randrange(256))
        other = tried.put("changed.cfp", bytes(changed))
        told, does = tried.call("native", other), tried.call("exec", other, "--limit", "1")
        if does[0] == 1: tried.same(f"bytes {number}", told, does)
        else: tried.same(f"bytes {number}", told, (0, native_text.text_of(bytes(changed)).encode(), ""))
    for prefix in ("1", "a b", "a.b", "int", "-", "a-", "é"):
        tried.same(f"prefix {prefix}", tried.call("native", path, f"--export={prefix}"), (2, b"", f"prefix {prefix}\n"))
        tried.same(f"prefix {prefix}", tried.call("native", "nothing", f"--export={prefix}"), (2, b"", f"prefix {prefix}\n"))
    tried.same("no file", tried.call("native", "nothing"), (2, b"", "file nothing\n"))
    os.mkdir(tried.path("folder"))
    os.symlink(path, tried.path("link"))
    os.link(path, tried.path("twin"))
    for kept in (path, tried.path("twin"), tried.path("link"), tried.path("folder"), "/dev/null", tried.path("none/x.s"), tried.path("node3.cf2")):
        tried.same(f"kept {kept}", tried.call("native", path, "-o", kept), (2, b"", f"file {kept}\n"))
    with open(path, "rb") as file: tried.same("the file that was read", file.read(), data)
    tried.same("dash", tried.call("native", path, "-o", "-"), tried.call("native", path))
    with open("/dev/full", "wb") as out: tried.same("full", ran([tried.program, "native", path], stdout=out), (4, None, "write 701\n"))


PARTS = {"texts": texts, "wrong": wrong, "deep": deep, "full": full, "exports": exports, "refused": refused}


def main():
    words = argparse.ArgumentParser(description=__doc__, formatter_class=argparse.RawDescriptionHelpFormatter)
    words.add_argument("--program", default=os.path.join(ROOT, "crates/cfarm/out/cfarm"))
    words.add_argument("--drawn", type=int, default=40)
    words.add_argument("parts", nargs="*", choices=[*PARTS, []])
    given = words.parse_args()
    with tempfile.TemporaryDirectory() as folder:
        tried = Tried(os.path.realpath(given.program), folder)
        for name in given.parts or PARTS: PARTS[name](tried, given.drawn)
    print(f"{tried.count} trials, {tried.bad} wrong")
    sys.exit(1 if tried.bad else 0)


if __name__ == "__main__":
    main()
