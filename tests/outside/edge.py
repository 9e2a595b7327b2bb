"""What the scripts of the edges share: a folder with a small text, the program over it, and a count of what is wrong."""
import argparse
import os
import subprocess
import sys
import tempfile

ROOT = os.path.dirname(os.path.dirname(os.path.dirname(os.path.realpath(__file__))))
PROGRAM = os.path.join(ROOT, "crates", "cfarm", "out", "cfarm")
SEVEN = b"int main(void){return 7;}\n"


class Edge:
    """Cases over fresh folders; each has to answer as it should and to leave the files as they should be."""

    def __init__(self, said, trials=0):
        parser = argparse.ArgumentParser(description=said, formatter_class=argparse.RawDescriptionHelpFormatter)
        parser.add_argument("--program", default=PROGRAM, help="the program that is tried")
        if trials:
            parser.add_argument("--trials", type=int, default=trials, help=f"how many are drawn ({trials})")
            parser.add_argument("--seed", type=int, default=1, help="what the draws begin with (1)")
        self.given = parser.parse_args()
        self.program = os.path.realpath(self.given.program)
        self.tried = self.wrong = 0

    def folder(self):
        """A new folder: one.c, e with a build of two nodes in it, and none with nothing."""
        made = tempfile.TemporaryDirectory(prefix="edge")
        at = lambda *names: os.path.join(made.name, *names)
        write(at("one.c"), SEVEN)
        os.mkdir(at("e"))
        os.mkdir(at("none"))
        self.run(at, "build", "one.c", "--nodes", "2", "--dir", "e")
        return made, at

    def run(self, at, *words, shell=None, env=None, seconds=60):
        """The status and the two outputs of the program with these words, by this script of a shell where one is given; 'hung' where it does not end."""
        words = [self.program, *words] if shell is None else ["sh", "-c", shell, "sh", self.program, *words]
        try:
            done = subprocess.run(words, cwd=at(), stdin=subprocess.DEVNULL, capture_output=True, timeout=seconds, env={**os.environ, **(env or {})})
        except subprocess.TimeoutExpired:
            return "hung", b"", b""
        return done.returncode, done.stdout, done.stderr

    def told(self, title, is_right, answer):
        self.tried += 1
        if not is_right:
            self.wrong += 1
            print(f"WRONG {title}: {answer}")

    def end(self):
        print(f"{self.tried} tried, {self.wrong} wrong")
        sys.exit(1 if self.wrong else 0)


def write(path, data):
    with open(path, "wb") as file:
        file.write(data)


def content(path):
    with open(path, "rb") as file:
        return file.read()


def seen(at):
    """What stands in a folder: of each path what it is, and its bytes."""
    found = {}
    for folder, folders, names in os.walk(at()):
        for name in folders + names:
            path = os.path.join(folder, name)
            kind = os.lstat(path)
            is_plain = os.path.isfile(path) and not os.path.islink(path)
            found[os.path.relpath(path, at())] = (kind.st_mode, kind.st_ino, content(path) if is_plain else None)
    return found
