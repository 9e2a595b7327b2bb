"""Calls that fail, one at a time, in a program that is run: tests/outside/shim.c, which is loaded before the C library."""
import os
import struct
import subprocess

SOURCE = os.path.join(os.path.dirname(os.path.abspath(__file__)), "shim.c")


def build(path):
    subprocess.run(["cc", "-O2", "-w", "-shared", "-fPIC", "-o", path, SOURCE, "-ldl"], check=True)


def variables(shim, told, of, onward, number):
    """The environment in which the call of this number fails, and with `onward` all behind it."""
    found = {"LD_PRELOAD": shim, "FAULT_TOLD": told, "FAULT_OF": of, "FAULT_AT": str(number)}
    return {**found, **({"FAULT_ONWARD": "1"} if onward else {})}


def seen(told):
    """How many calls there were, and the name of the one that failed, if one did."""
    try:
        with open(told, "rb") as file:
            data = file.read()
    except OSError:
        data = b""
    data = data or bytes(32)
    return struct.unpack("l", data[:8])[0], data[8:].rstrip(b"\0").decode()
