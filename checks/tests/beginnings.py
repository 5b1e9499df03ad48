"""Gives the program every beginning of the texts and traces in examples/.  [PROGRAM|--unproved]

A text is whole once the `end` of its last function is there. Every shorter beginning is a fault of a text, status 3.
A beginning of a trace is a trace if and only if it is empty or ends with a newline. Otherwise the answer is `error T3`.
The last line is `N passed, M failed`, of beginnings.
"""
import glob
import os
import sys
import tempfile

from checks import tally
from checks.programs import ROOT, says, taken


def whole_from(text):
    """The position after the last `end` that has a line to itself, without comments."""
    at = whole = 0
    for line in text.splitlines(keepends=True):
        if line.split(b";")[0].split() == [b"end"]:
            whole = at + line.index(b"end") + len("end")
        at += len(line)
    return whole


def texts(program, path, beginning):
    """Yields whether the answer to each beginning of a text is right."""
    text = open(path, "rb").read()
    whole, want = whole_from(text), says(program, "verify", path)
    for size in range(len(text)):
        with open(beginning, "wb") as file:
            file.write(text[:size])
        answer = says(program, "verify", beginning)
        right = answer == want if size >= whole else answer[0] == 3 and answer[1].startswith("error A")
        yield f"{path}, {size} bytes", right, answer


def traces(program, path, beginning):
    """Yields whether the answer to each beginning of a trace is right."""
    trace, text = open(path, "rb").read(), path.replace(".trace", ".sts")
    for size in range(len(trace)):
        with open(beginning, "wb") as file:
            file.write(trace[:size])
        answer = says(program, "replay", text, beginning)
        is_trace = size == 0 or trace[size - 1 : size] == b"\n"
        right = answer[0] in (0, 1, 4, 5) and not answer[1].startswith("error") if is_trace else answer == (3, "error T3\n")
        yield f"{path}, {size} bytes", right, answer


def tried(program):
    """Yields each beginning, whether the answer to it is right, and the answer."""
    with tempfile.TemporaryDirectory() as folder:
        for kind, suffix in ((texts, "sts"), (traces, "trace")):
            for path in sorted(glob.glob(f"{ROOT}/examples/*.{suffix}")):
                yield from kind(program, path, os.path.join(folder, "beginning"))


def main():
    [program], _ = taken(sys.argv[1:], "sts")
    return tally.holding(tried(program))
