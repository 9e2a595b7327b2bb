#!/usr/bin/env python3
"""Function forms for builders: what pass 1 begins with, and what the others do where the offers of a bundle were taken.

    cfarm emit life.c --of rtl > life.rtl
    ./inputs.py life.rtl forms
    cfarm emit life.c --of bundle --seed 1 > life.cfb
    ./inputs.py life.rtl forms life.cfb

The first writes `forms/NAME.pass1` for each function, the second those of the other passes too: the inputs of the bundle's offers."""
import os
import sys

from builder import Blocks, tidy


def input_of(offer):
    """The input that a written offer begins with, behind the number of its form."""
    it = tidy.Reader(offer)
    it.u8()
    if offer[0] == 4:
        Blocks(it)
    else:
        tidy.read_function(it)
    return offer[1:it.at]


def offers_in(bundle):
    """The offers of each function."""
    it = tidy.Reader(bundle)
    it.bytes(36)
    return [[it.bytes(it.u32()) for _ in range(4)] for _ in range(it.u8())]


def forms_of(program, bundle):
    """Each function's name, and its forms, pass by pass."""
    if bundle is None:
        return [(name, [function.written()]) for name, function in program]
    return [(name, [input_of(offer) for offer in offers]) for (name, _), offers in zip(program, offers_in(bundle))]


def read(path):
    with open(path, "rb") as file:
        return file.read()


def main():
    if len(sys.argv) not in (3, 4):
        sys.exit("usage: inputs.py PROGRAM.rtl FOLDER [BUNDLE]")
    program, folder = tidy.read_program(read(sys.argv[1])), sys.argv[2]
    os.makedirs(folder, exist_ok=True)
    for name, forms in forms_of(program, read(sys.argv[3]) if len(sys.argv) == 4 else None):
        for number, form in enumerate(forms, 1):
            with open(os.path.join(folder, f"{name}.pass{number}"), "wb") as file:
                file.write(form)


if __name__ == "__main__":
    main()
