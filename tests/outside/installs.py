#!/usr/bin/env python3
"""Installs the built program below an empty folder, runs it there, takes it away again, and makes the archive twice.

    tests/outside/installs.py

Each file of tools/installed must stand where it says, with its mode and bytes, and nothing else; the installed program must check, build and run
an example from another folder, and examples/library/verify.c, compiled as cfarm.pc says, must verify what was built, which is skipped by name where
there is no cc or no pkg-config; `./uninstall` must leave an empty folder and, beside other files, those; two archives must be the same byte for
byte, hold the same files, and have the digest that is told. Its status is 1 where something differs."""
import filecmp
import hashlib
import os
import shutil
import subprocess
import sys
import tarfile
import tempfile

ROOT = os.path.dirname(os.path.dirname(os.path.dirname(os.path.abspath(__file__))))
wrong = []


def expect(is_so, what):
    if not is_so:
        wrong.append(what)


def run(*words, **more):
    return subprocess.run(words, stdin=subprocess.DEVNULL, stdout=subprocess.PIPE, stderr=subprocess.PIPE, check=False, **more)


def listed():
    with open(os.path.join(ROOT, "tools", "installed"), encoding="utf-8") as file:
        return [line.split() for line in file if not line.startswith("#")]


def files_below(folder):
    return {os.path.relpath(os.path.join(at, it), folder) for at, _, files in os.walk(folder) for it in files}


def is_same(source, path):
    """Whether a file is what its source becomes: where that ends with .in, with the version filled in."""
    if not source.endswith(".in"):
        return filecmp.cmp(source, path, shallow=False)
    version = run(os.path.join(ROOT, "cfarm"), "--version").stdout.decode().split()[1]
    with open(source, encoding="utf-8") as wanted, open(path, encoding="utf-8") as found:
        return wanted.read().replace("@VERSION@", version) == found.read()


def are_as_listed(folder, what):
    expect(files_below(folder) == {to for _, to, _ in listed()}, f"{what}: other files stand there")
    for source, to, mode in listed():
        path = os.path.join(folder, to)
        expect(is_same(os.path.join(ROOT, source), path), f"{what}: {to} has other bytes")
        expect(oct(os.stat(path).st_mode & 0o777) == "0o" + mode, f"{what}: {to} has another mode")


def runs(program, folder):
    text = os.path.join(ROOT, "examples", "cubes.c")
    built = os.path.join(folder, "built")
    os.mkdir(built)
    for words in (["check", text], ["build", text, "--dir", built, "--bundle", os.path.join(folder, "bundle")], ["exec", os.path.join(built, "linked.cfp")]):
        found = run(program, *words, cwd=folder)
        expect(found.returncode == 0, f"the installed program: {words[0]} ends with {found.returncode}: {found.stderr.decode()}")


def compiles(prefix, room):
    """A program in C, by the installed header and library."""
    if not shutil.which("cc") or not shutil.which("pkg-config"):
        print("skipped: examples/library/verify.c, for want of cc or pkg-config")
        return
    where = {**os.environ, "PKG_CONFIG_PATH": os.path.join(prefix, "lib", "pkgconfig")}
    flags = run("pkg-config", "--cflags", "--libs", "cfarm", env=where).stdout.decode().split()
    made = os.path.join(room, "verify")
    found = run("cc", "-std=c99", os.path.join(ROOT, "examples", "library", "verify.c"), *flags, f"-Wl,-rpath,{prefix}/lib", "-o", made)
    expect(found.returncode == 0, f"verify.c is not compiled as cfarm.pc says: {found.stderr.decode()}")
    text, program, bundle = os.path.join(ROOT, "examples", "cubes.c"), os.path.join(room, "built", "linked.cfp"), os.path.join(room, "bundle")
    wanted = run(os.path.join(prefix, "bin", "cfarm"), "verify", text, "--program", program, "--bundle", bundle)
    found = run(made, text, program, bundle)
    expect((found.returncode, found.stdout) == (0, wanted.stdout), f"the C program ends with {found.returncode}: {found.stdout}{found.stderr}")


def installing(room):
    prefix = os.path.join(room, "prefix")
    expect(run(os.path.join(ROOT, "install"), prefix).returncode == 0, "install fails")
    expect(run(os.path.join(ROOT, "install"), prefix).returncode == 0, "a second install fails")
    are_as_listed(prefix, "install")
    runs(os.path.join(prefix, "bin", "cfarm"), room)
    compiles(prefix, room)
    with open(os.path.join(prefix, "bin", "other"), "w", encoding="utf-8"):
        pass
    expect(run(os.path.join(ROOT, "uninstall"), prefix).returncode == 0, "uninstall fails")
    expect(files_below(prefix) == {"bin/other"}, "uninstall: what was another's is gone, or what was ours stays")
    expect(not os.path.exists(os.path.join(prefix, "share")), "uninstall leaves empty folders")


def archiving(room):
    found = []
    for name in ("first", "second"):
        folder = os.path.join(room, name)
        os.mkdir(folder)
        told = run(os.path.join(ROOT, "dist"), folder).stdout.decode().split()
        archive = os.path.join(folder, told[1])
        with open(archive, "rb") as file:
            found.append(file.read())
        expect(hashlib.sha256(found[-1]).hexdigest() == told[0], "dist tells another digest")
        with tarfile.open(archive) as tar:
            tar.extractall(folder)
        are_as_listed(os.path.join(folder, told[1].removesuffix(".tar.gz")), "dist")
    expect(found[0] == found[1], "two archives differ")


def main():
    with tempfile.TemporaryDirectory() as room:
        installing(room)
        archiving(room)
    print("\n".join(wrong + [f"{len(wrong)} wrong"]))
    return 1 if wrong else 0


if __name__ == "__main__":
    sys.exit(main())
