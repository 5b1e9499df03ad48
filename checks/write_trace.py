#!/usr/bin/env python3
"""Prints the trace that is written short.  usage: write_trace.py WORDS

`0*5` means five lines `step 0`, `1..3*2` means `1*2 2*2 3*2`, `i0` means `interrupt 0` and `x0` means `expire 0`. Words
are separated by blanks. A trace has at most 10,000,000 lines. This is no check, but a tool for users: a message of `sts` names it.
"""
import os
import sys

sys.path[0] = os.path.dirname(os.path.dirname(os.path.realpath(__file__)))
from checks import notation  # noqa: E402

if __name__ == "__main__":
    if len(sys.argv) < 2:
        sys.exit(__doc__.split("\n")[0])
    try:
        print(notation.events(" ".join(sys.argv[1:])), end="")
    except ValueError as error:
        sys.exit(f"checks/write_trace.py: {error}")
