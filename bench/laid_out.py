"""A crate that is no part of the gate: it stands as a patch in bench/ or tests/outside/, and is laid out in the tree, proved and built where it is used."""
import os
import subprocess

ROOT = os.path.dirname(os.path.dirname(os.path.realpath(__file__)))
PLAN = os.path.join(ROOT, "crates.txt")


class LaidOut:
    """The crate that a line of the floor plan names, and the patch (a path below the top) that has its files."""

    def __init__(self, patch, line):
        self.patch = os.path.join(ROOT, patch)
        self.line = line
        crate = line.partition(":")[0].split()[0]
        self.folder = os.path.join(ROOT, "crates", crate)
        self.program = os.path.join(self.folder, "out", crate)

    def _lay(self):
        subprocess.run(["git", "apply", self.patch], cwd=ROOT, check=True)
        with open(PLAN, "a", encoding="utf-8") as plan:
            plan.write(self.line)
        return subprocess.run(["rt", "run"], cwd=self.folder, check=False).returncode

    def add(self):
        """Lays it out, proves it, builds it and runs it without words: the status of that run."""
        return self._lay()

    def add_built(self):
        """The same for a program that refuses to run without words, or does nothing: 0 where it was built."""
        self._lay()
        return 0 if os.path.exists(self.program) else 1

    def remove(self):
        subprocess.run(["git", "apply", "--reverse", self.patch], cwd=ROOT, check=True)
        with open(PLAN, encoding="utf-8") as plan:
            lines = plan.readlines()
        with open(PLAN, "w", encoding="utf-8") as plan:
            plan.writelines(it for it in lines if it != self.line)
        return 0
