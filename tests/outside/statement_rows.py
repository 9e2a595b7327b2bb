#!/usr/bin/env python3
"""What a C compiler says of `do`, compound assignment, `++` and `--`, as rows of crates/worked_rows/data/statements.txt.

    tests/outside/statement_rows.py             prints the rows
    tests/outside/statement_rows.py --compare   compares the rows that stand there with those

A row: the bound, the program, its output and its closing line, with tabs between. The rows:

- each operator on each pair of types, at the edges of both, on a local, a global and a cell, where C has a result;
- one program for each kind of operands where C has none. gcc must find the fault while it runs;
- small programs, which gcc finds to go wrong or not;
- loops at each bound from 0 to the first at which they end. gcc runs the same text with a count of the bound written
  into it.
"""
import os
import re
import subprocess
import sys
import tempfile

ROOT = os.path.dirname(os.path.dirname(os.path.dirname(os.path.realpath(__file__))))
ROWS = os.path.join(ROOT, "crates", "worked_rows", "data", "statements.txt")
BOUND = 100000

DRIVER = r"""
#include <signal.h>
#include <stdio.h>
#include <stdlib.h>
#include <string.h>
#include <unistd.h>
int program_main(void);
unsigned left;
static void tell(const char *closing) { fflush(stdout); fprintf(stderr, "\n%s", closing); fflush(stderr); _exit(0); }
void head(void) { if (left == 0u) tell("running"); left -= 1u; }
static void wrong(int signal) { (void)signal; tell("wrong"); }
int main(int count, char **words) {
    (void)count;
    left = (unsigned)strtoul(words[1], 0, 10);
    signal(SIGFPE, wrong); signal(SIGABRT, wrong); signal(SIGILL, wrong); signal(SIGSEGV, wrong);
    int result = program_main();
    char closing[32];
    sprintf(closing, "ended %d", result);
    tell(closing);
}
"""
# The values of both types; a word is written so that it has the type.
EDGES = {
    "int": (0, 1, 2147483647, -2147483648, -1, 31, 32),
    "unsigned": (0, 1, 4294967295, 2147483648, 2147483647, 31, 32),
}
OPERATORS = ("+", "-", "*", "/", "%", "<<", ">>", "&", "^", "|")
SHOW = "void show(unsigned n){unsigned s=32u; do{unsigned d; s-=4u; d=n>>s&15u; putchar((int)(d<10u?d+48u:d+87u));}while(s);} "
# What is written into a loop so that its bound is counted: round it, in its condition or at the head of a `do`'s body
# and behind that, and at the head of a called body, whose call stands in what is round a loop.
COUNTED = {"«": "{unsigned kept=left;", "»": "left=kept;}", "¤": "head(),", "¦": "{head();", "¬": "}", "¢": "head();"}


def written(value, kind):
    if kind == "unsigned":
        return f"{value}u"
    return "-2147483647-1" if value == -2147483648 else str(value)


def has_result(operator, kind, other, x, y):
    """Whether C has a result for the operator on values of the two types (C99 6.5.5 to 6.5.12)."""
    if operator in ("<<", ">>"):
        if not 0 <= y < 32:
            return False
        return operator == ">>" or kind == "unsigned" or (x >= 0 and x << y < 2**31)
    if operator in ("/", "%") and y == 0:
        return False
    if "unsigned" in (kind, other) or operator in "&^|":
        return True
    if operator in ("/", "%"):
        return not (x == -(2**31) and y == -1)
    exact = {"+": x + y, "-": x - y, "*": x * y}[operator]
    return -(2**31) <= exact < 2**31


class Compiled:
    """A program as gcc compiles it, with checks while it runs."""

    def __init__(self, text):
        self.folder = tempfile.TemporaryDirectory()
        source, driver, self.binary = (os.path.join(self.folder.name, name) for name in ("program.c", "driver.c", "program"))
        # main's end returns 0, which the compiler knows of the name main alone
        front, end = text.replace("main(void)", "program_main(void)").rsplit("}", 1)
        with open(source, "w") as file:
            file.write("extern unsigned left; void head(void);\n" + front + "return 0; }" + end + "\n")
        with open(driver, "w") as file:
            file.write(DRIVER)
        subprocess.run(
            ["gcc", "-std=c99", "-w", "-O0", "-fsanitize=undefined", "-fno-sanitize-recover=all", "-fsanitize-undefined-trap-on-error",
             source, driver, "-o", self.binary],
            check=True,
        )

    def answer(self, bound):
        run = subprocess.run([self.binary, str(bound)], capture_output=True, check=True)
        return run.stdout.decode("latin1"), run.stderr.decode().rsplit("\n", 1)[1]


def row(text, bound, told):
    return f"{bound}\t{text}\t{told[0]}\t{told[1]}"


def operator_rows():
    """Each operator and pair of types: all operands that have a result, on a local, a global and a cell."""
    for operator in OPERATORS:
        for kind in EDGES:
            for other in EDGES:
                lefts, rights = EDGES[kind], EDGES[other]
                masks = [sum(has_result(operator, kind, other, x, y) << j for j, y in enumerate(rights)) for x in lefts]
                change = f"{operator}=b[j];"
                text = (
                    f"int putchar(int); {kind} g; {kind} c[3]; {kind} a[7]={{{','.join(written(x, kind) for x in lefts)}}}; "
                    f"{other} b[7]={{{','.join(written(y, other) for y in rights)}}}; "
                    f"unsigned has[7]={{{','.join(f'{mask}u' for mask in masks)}}}; " + SHOW +
                    "int main(void){for(int i=0;i<7;i++)for(int j=0;j<7;j++){if(!(has[i]>>j&1u))continue; "
                    f"{kind} x=a[i]; x{change} g=a[i]; g{change} c[i%3]=a[i]; c[i%3]{change} "
                    "if(g!=x||c[i%3]!=x)return 1; show((unsigned)x); putchar(' ');}}"
                )
                told = Compiled(text).answer(0)
                assert told[1] == "ended 0", (text, told)
                yield row(text, BOUND, told)


def chosen_faults():
    """Operands without a result: all of + - *, the quotients of the edges, shifts of and by what has none."""
    ends = {"int": (1, -2147483648), "unsigned": (1, 4294967295)}
    for operator in OPERATORS:
        for kind in EDGES:
            for other in EDGES:
                for x in EDGES[kind]:
                    for y in EDGES[other]:
                        if has_result(operator, kind, other, x, y):
                            continue
                        if operator in ("/", "%") and y == 0 and x not in ends[kind]:
                            continue
                        if operator in ("<<", ">>") and not 0 <= y < 32 and (x != 1 or y == 2147483647):
                            continue
                        if operator == "<<" and 0 <= y < 32 and x in (31, 32):
                            continue
                        if operator in ("+", "-", "*") and (x in (31, 32) or y in (31, 32)):
                            continue
                        yield operator, kind, other, x, y


def fault_rows():
    """One program each, on a local, a global and a cell in turn. What is printed before stands."""
    places = ("{k} x={x}; putchar('<'); x{o}={y};", "g={x}; putchar('<'); g{o}={y};", "c[1]={x}; putchar('<'); c[1]{o}={y};")
    fronts = ("", "{k} g; ", "{k} c[2]; ")
    for number, (operator, kind, other, x, y) in enumerate(chosen_faults()):
        words = {"k": kind, "o": operator, "x": written(x, kind), "y": f"({written(y, other)})" if y == -(2**31) else written(y, other)}
        front, place = fronts[number % 3].format(**words), places[number % 3].format(**words)
        yield wrong_row(f"int putchar(int); {front}int main(void){{{place} putchar('>');}}")
    for value, sign in (("2147483647", "++"), ("-2147483647-1", "--")):
        for change in (f"x{sign};", f"{sign}x;"):
            yield wrong_row(f"int putchar(int); int main(void){{int x={value}; putchar('<'); {change} putchar('>');}}")
        for change in (f"c[x]{sign};", f"{sign}c[x];"):
            yield wrong_row(f"int putchar(int); int c[2]; int main(void){{int x=1; c[1]={value}; putchar('<'); {change} putchar('>');}}")


def wrong_row(text):
    told = Compiled(text).answer(0)
    assert told == ("<", "wrong"), (text, told)
    return row(text, BOUND, told)


PROGRAMS = (
    # the same name and the same cell on both sides, and an index that the change changes
    "int main(void){int x=5; x+=x; return x;}",
    "int main(void){int x=3; x*=x; x-=x-2; x^=x; x|=9; x&=x; return x;}",
    "int a[4]={2,7,5,9}; int main(void){a[a[0]]+=1; return a[2];}",
    "int a[2]={0,5}; int main(void){a[a[0]]+=1; a[a[0]]+=1; return a[0]*10+a[1];}",
    "int a[3]={1,2,40}; int main(void){a[a[a[0]]]--; ++a[a[0]]; --a[a[1]-3]; return a[0]*10000+a[1]*100+a[2];}",
    "int a[5]={3,1,4,1,5}; int main(void){for(int i=0;i<5;i++)a[i]+=a[i]*2+i; int s=0; for(int i=0;i<5;++i)s=s*31+a[i]; return s;}",
    "unsigned a[4]={1u,2u,3u}; int main(void){a[0]-=2; a[1]+=-3; a[2]*=-1; a[3]--; unsigned s=0u; for(int i=0;i<4;i++){s*=31u; s+=a[i];} return (int)s;}",
    "int a[3]={-8,-8,-8}; int main(void){a[0]/=3u; a[1]>>=1u; a[2]%=5u; return a[0]^a[1]^a[2];}",
    # the value is taken as if in parentheses
    "int main(void){int x=7; x*=1+2; x-=2-1; x<<=1|2; x%=x>9?97:3; x/=1+1; x&=15&~1; x^=1<<3; x|=6==6; return x;}",
    "int main(void){unsigned x=1; x-=2; x>>=x>>27; x+='a'; x*=-1; return (int)x;}",
    "int main(void){int x=1; x+=-x?-x:x; x+= +x; x-=- -x; x-=2; return x;}",
    # every spelling of a step
    "int a[1]; int g; int main(void){int x=0; x++; ++x; x++; x--; g--; --g; ++g; a[0]++; ++a[0]; --a[0]; a[x-2]++; return x*100+g*10+a[0];}",
    "unsigned a[1]; unsigned g; int main(void){unsigned x=0; x--; g--; --a[0]; x++; ++g; a[0]++; return (int)(x+g+a[0]);}",
    "int main(void){int x=2147483646; x++; x--; ++x; --x; x=-2147483647; x--; return x;}",
    # statements in each place where one may stand
    "int main(void){int x=3; if(x)x--;else x++; if(!x)x--;else ++x; while(x<9)x++; for(;x<20;)x+=4; do x-=3; while(x>5); return x;}",
    "int main(void){int i; int s=0; for(i=0;i<3;i++)s+=i; for(i=8;i;i>>=1)s*=2; for(i+=5;i>0;--i)s++; return s;}",
    "int a[4]; int main(void){int i; for(a[1]+=2;a[1]<9;a[1]++)a[2]-=a[1]; for(i=3;i;a[i]+=i)i--; for(++i;i<100;i<<=1); return a[0]+a[1]*10-a[2]*1000+i;}",
    # names of every kind, and names that hide others
    "int x=1; int main(void){x+=4; int x=2; {int x=5; x++;} x+=1; for(int x=0;x<3;x++); return x;}",
    "int f(int n){n+=2; n*=n; --n; return n;} int main(void){int x=f(3); x-=1; int y=f(x); x+=y; return x;}",
    "int g; int f(void){g+=3; g*=2; return g;} int main(void){g++; f(); f(); g=f(); g-=1; return g;}",
    # cells beside calls whose values go to a global, a local and the caller
    "int g; int a[3]={1,2,3}; int f(int n){a[n]+=n; return a[n];} int main(void){g=f(1); a[g-2]*=g; int x=f(2); a[x-4]-=x; g+=x; return f(0);}",
    "int a[3]; int f(int n){int x=n; a[n%3]+=n; if(n)x=f(n-1); a[n%3]*=2; x+=a[n%3]; return x;} int main(void){return f(6);}",
    # conditions of `do`
    "int main(void){int x=0; do x+=3; while(x%7); return x;}",
    "int main(void){unsigned x=1u; do x<<=1; while(x); return (int)x;}",
    "int putchar(int); int main(void){int i=3; do{int j=i; do putchar('a'+j);while(0); j--; i=j;}while(i||0); putchar('.');}",
    "int main(void){int i=0; int s=0; do{i++; if(i%2)continue; if(i>8)break; s+=i;}while(i<100); return s*100+i;}",
    "int main(void){int i=5; if(i)do i--; while(i); else i=9; return i;}",
    "int main(void){int i=1; int j=0; do if(i)if(j)i=5;else i=0;while(i); return i;}",
    # faults of indexes, and behind them
    "int putchar(int); int a[2]; int main(void){putchar('<'); a[2]+=1; putchar('>');}",
    "int putchar(int); int a[2]; int main(void){putchar('<'); a[-1]++; putchar('>');}",
    "int putchar(int); int a[2]; int main(void){putchar('<'); --a[0u-1u]; putchar('>');}",
    "int putchar(int); int a[2]; int main(void){putchar('<'); a[1/a[0]]+=1; putchar('>');}",
    "int putchar(int); int a[2]; int main(void){putchar('<'); a[1]+=1/a[0]; putchar('>');}",
    "int putchar(int); int a[2]; int main(void){int x=0; do putchar('<'); while(1/x); putchar('>');}",
    "int putchar(int); int a[2]; int main(void){int x=3; do{putchar('<'); a[x-1]-=x; x--;}while(x); putchar('>');}",
)

LOOPS = (
    "int main(void){int i=0; «do¦i++;¬while(i<3);» return i;}",
    "int main(void){int i=0; «while(¤i<3)i++;» return i;}",
    "int putchar(int); int main(void){«do¦putchar('a');¬while(0);» putchar('b'); return 1;}",
    "int putchar(int); int main(void){«do¦{putchar('a'); continue; putchar('b');}¬while(0);» putchar('c');}",
    "int putchar(int); int main(void){int i=0; «do¦{i++; if(i==2)continue; putchar('0'+i);}¬while(i<4);» return i;}",
    "int putchar(int); int main(void){int i=0; «do¦{i++; if(i==3)break; putchar('0'+i);}¬while(1);» return i;}",
    "int putchar(int); int main(void){int i=0; «do¦{int j=0; «do¦{putchar('a'+i); putchar('0'+j); j++;}¬while(j<2);» i++;}¬while(i<3);» putchar('.');}",
    "int putchar(int); int main(void){«for(int i=0;¤i<2;i++){int j=2; «do¦{putchar('0'+j); j--; if(i)continue;}¬while(j);» putchar('a'+i);}»}",
    "int putchar(int); int main(void){int i=0; «do¦{«for(int j=0;¤j<2;j++)putchar('0'+j);» i+=2; if(i==2)continue; putchar('.');}¬while(i<4);» return i;}",
    "int putchar(int); int main(void){«for(int i=3;¤i;i--){«do¦{if(i==2)break; putchar('0'+i); if(i==1)continue; putchar('!');}¬while(i<0);» putchar(',');}»}",
    "int putchar(int); int main(void){int i=2; «do¦«while(¤1){if(!i)break; putchar('a'+i); i--; if(i)continue; break;}»¬while(i);» return 3;}",
    "int putchar(int); void f(int n){¢ «do¦{putchar('0'+n); n--;}¬while(n);»} int main(void){int i=0; «do¦{i++; «f(i);»}¬while(i<2);» putchar('.');}",
    "int putchar(int); int main(void){int i; «for(i=4;¤i;i>>=1)putchar('0'+i);» putchar('.');}",
    "int putchar(int); int a[1]; int main(void){«for(a[0]--;¤a[0]<2;a[0]++)putchar('b'+a[0]);» putchar('.'); return a[0];}",
    "int putchar(int); int main(void){int i=0; «do¦{putchar('a'+i); if(i==1)return 7; i++;}¬while(1);»}",
    "int putchar(int); int main(void){int i=2; «do¦{putchar('0'+i); i--;}¬while(6/i);» return i;}",
)


def program_rows():
    for text in PROGRAMS:
        yield row(text, BOUND, Compiled(text).answer(BOUND))


def loop_rows():
    """Each loop at each bound, up to the first at which it is not cut."""
    for marked in LOOPS:
        text = re.sub(r"do¦(?=«?\w)", "do ", marked)
        for mark in COUNTED:
            text = text.replace(mark, "")
        counted = marked
        for mark, words in COUNTED.items():
            counted = counted.replace(mark, words)
        program = Compiled(counted)
        for bound in range(100):
            told = program.answer(bound)
            yield row(text, bound, told)
            if told[1] != "running":
                break


def rows():
    yield from operator_rows()
    yield from fault_rows()
    yield from program_rows()
    yield from loop_rows()


def main():
    if sys.argv[1:] not in ([], ["--compare"]):
        sys.exit(__doc__)
    if not sys.argv[1:]:
        print("\n".join(rows()))
        return
    with open(ROWS) as file:
        stored = file.read().splitlines()
    made = list(rows())
    bad = [one for one in made if one not in stored] + [one for one in stored if one not in made]
    print("\n".join(bad + [f"{len(made)} rows, {len(bad)} differ"]))


if __name__ == "__main__":
    main()
