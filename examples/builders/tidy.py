#!/usr/bin/env python3
"""A builder in Python: it reads the function form that a pass begins with, and writes an offer of that pass.

    ./tidy.py agreed/main.pass3 offers/node0/main.pass3

It knows docs/FORMATS.md and docs/PASSES.md, and nothing of the farm's code. The number at the end of the first name says which pass it is. What
it does in each is told in examples/optimisers/tidy.py, which does the same to a whole program; here its input is what the farm agreed on, whoever
made it. Where it has no register left it writes nothing. Whatever it writes, the farm's checks decide."""
import sys

from builder import Blocks, tidy


def facts(function, kind, written):
    found = kind(function)
    return function.with_nodes([found.node(at) for at in range(len(function.nodes))]).written(), found.rows(written)


def allocated(function):
    allocation = tidy.Allocation(function)
    return allocation.written(), allocation.rows()


def laid_out(blocks):
    order = tidy.order_of(blocks.graph)
    return tidy.laid_out(blocks, order), tidy.u16(len(order)) + b"".join(map(tidy.u16, order))


def offer_of(number, form):
    """The written offer of a pass for this function form."""
    it = tidy.Reader(form)
    output, certificate = {
        1: lambda: facts(tidy.read_function(it), tidy.Constants, tidy.written_fact),
        2: lambda: facts(tidy.read_function(it), tidy.Equations, tidy.written_equation),
        3: lambda: allocated(tidy.read_function(it)),
        4: lambda: laid_out(Blocks(it)),
    }[number]()
    return bytes([(17, 18, 19, 4)[number - 1]]) + form + output + certificate


def main():
    if len(sys.argv) != 3 or sys.argv[1][-1:] not in ("1", "2", "3", "4"):
        sys.exit("usage: tidy.py NAME.passK OFFER")
    with open(sys.argv[1], "rb") as file:
        form = file.read()
    try:
        offer = offer_of(int(sys.argv[1][-1]), form)
    except tidy.NoRegister:
        return
    with open(sys.argv[2], "wb") as file:
        file.write(offer)


if __name__ == "__main__":
    main()
