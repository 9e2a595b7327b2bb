#!/usr/bin/env python3
"""Lays out, proves and builds the program `measure`, which tells how long single calls of the product take.

    bench/measure.py            adds crates/measure to the tree, and proves and builds it
    bench/measure.py --remove   takes it out again

It is no part of the gate, since it is linked with all crates and takes a twentieth of the gate's time; so it stands as
a patch, bench/measure.patch, and is proved whenever it is used. Remove it before anything is committed."""
import sys

from laid_out import LaidOut

LAID = LaidOut(
    "bench/measure.patch",
    "measure may_wait=5: chains c_checker cminor rtlgen c_reader c_lexer cminor_language rtl_language rtl lang_helpers"
    " lang linear_language linear oracle_const constprop_check oracle_cse oracle_alloc oracle_order offers"
    " parallel_validate lang_base anyhow rand_pcg rand_core\n",
)


if __name__ == "__main__":
    asked = {"": LAID.add, "--remove": LAID.remove}.get(" ".join(sys.argv[1:]))
    sys.exit(asked() if asked else __doc__)
