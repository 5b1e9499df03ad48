"""Runs programs by workers with outside events, with a journal and without.  [PROGRAM|--unproved]

Programs of one task: their ends and journals follow from when an event is due. Four long tasks: an event is late by one slice
at most. And a long loop. The last line is `N passed, M failed`, of runs.
"""
import os
import sys
import tempfile

from checks import tally
from checks.programs import answer, kept, taken

SECONDS = 120
# Programs of one task. Before each of its turns outside events are taken, so the place of each in the journal is known.
TIMED = b"func main 0\nopen s0 awaitall timed\njoin s0 - late intr\nclose s0\npush 1\nret\n" \
    b"late:\nclose s0\npush 2\nret\nintr:\nclose s0\npush 3\nret\nend\n"
ASKS = b"func main 0\ninterrupted\nret\nend\n"
# 2 + 8 * (2 + 10,000 + 1) = 80,026 steps, and then it asks for its flag
LONG = b"func main 0\npush 8\ntimes 8\npush 10000\ntimes 10000\nnext\nnext\ninterrupted\nret\nend\n"
# An outside text, the end of the run, and its journal: `s` is a step, `i7` an interrupt of task 7, `x0` an expiry of scope 0.
# An event is due when the journal has at least as many entries as its line says. It holds back those after it.
# The expiry counts after the `open` and before the `join`, and then the end is 2.
OUTSIDES = [
    (TIMED, "", "success 1", "s*5"),
    (TIMED, "at 0 x0", "success 1", "x0 s*5"),
    (TIMED, "at 1 x0", "success 2", "s x0 s*4"),
    (TIMED, "at 2 x0", "success 1", "s*2 x0 s*3"),
    # an event is an entry whether it counts or not, so the second one is due after one step
    (TIMED, "at 0 i77, at 2 x0", "success 2", "i77 s x0 s*4"),
    (TIMED, "at 0 i0, at 2 x0", "success 2", "i0 s x0 s*4"),
    (TIMED, "at 0 i77, at 3 x0", "success 1", "i77 s*2 x0 s*3"),
    (TIMED, "at 0 i0, at 3 x0", "success 1", "i0 s*2 x0 s*3"),
    # events that are due at once come in the order of their lines
    (TIMED, "at 1 i0, at 1 x0", "success 2", "s i0 x0 s*4"),
    (TIMED, "at 1 x0, at 0 i0", "success 2", "s x0 i0 s*4"),
    # the second one would be due before, and is held back
    (TIMED, "at 2 i77, at 1 x0", "success 1", "s*2 i77 x0 s*3"),
    (TIMED, "at 3 i77, at 0 x0", "success 1", "s*3 i77 x0 s*2"),
    (TIMED, "at 99 i77, at 1 x0", "success 1", "s*5"),
    (ASKS, "at 0 i0", "success 1", "i0 s*2"),
    (ASKS, "at 1 i0", "success 0", "s i0 s"),
    # what is due when the root ends is recorded
    (ASKS, "at 2 i0", "success 0", "s*2 i0"),
    (ASKS, "at 3 i0", "success 0", "s*2"),
    (LONG, "at 80026 i0", "success 1", "s*80026 i0 s*2"),
    (LONG, "at 80027 i0", "success 0", "s*80027 i0 s"),
]
# Where instructions are done in a slice, an event may come later than it is due, but before `interrupted`.
LATE = ["at 65535 i0", "at 65536 i0", "at 70000 i0"]
# Four subtasks of 200,064 steps each. An event that is due is late by the steps of one slice at most.
FOUR = b"func work 0\npush 20\ntimes 20\npush 10000\ntimes 10000\nnext\nnext\npush 0\nret\nend\n" \
    b"func main 0\nopen s0 awaitall\n" + b"fork s0 work _\n" * 4 + b"join s0 - - intr\nclose s0\npush 1\nret\n" \
    b"intr:\npush 0\nclose s0\nfail\nend\n"
SLICE = 65_536
# 2 + 90 * (2 + 10,000 + 1) + 2 steps
LONGEST = LONG.replace(b" 8\n", b" 90\n")


def says(program, *words):
    """Returns the output, or nothing if the program doesn't end."""
    return answer(program, *words, seconds=SECONDS).printed


def event(short):
    """Returns the words of an event: `x0` is `expire 0`."""
    return {"i": "interrupt", "x": "expire"}[short[0]] + f" {short[1:]}"


def outside_text(short):
    """Returns an outside text: `at 1 x0` is the line `at 1 expire 0`."""
    lines = [it.rsplit(" ", 1) for it in short.split(", ") if it]
    return "".join(f"{due} {event(it)}\n" for due, it in lines).encode()


def journal_text(short):
    """Returns the text of a journal: `s*2` is `step 0` twice."""
    found = []
    for word in short.split():
        step, _, count = word.partition("*")
        found += ["step 0"] * int(count or 1) if step == "s" else [event(word)]
    return "".join(f"{it}\n" for it in found)


def with_outside(program, folder, text, short, workers):
    """Returns what a run prints besides the budgets, with a journal and without one, and the journal."""
    file, outside, journal = kept(folder, "text", text), kept(folder, "outside", outside_text(short)), os.path.join(folder, "journal")
    words = ["run", file, "--workers", workers, *(["--outside", outside] if short else [])]
    budgets = says(program, "verify", file)
    said = [says(program, *words, *more).removeprefix(budgets) for more in ([], ["--trace", journal])]
    return said, read_all(journal)


def read_all(path):
    """Returns what a file has, if it is there."""
    return open(path).read() if os.path.exists(path) else ""


def outsides(program, folder):
    """Yields of each row with outside events whether its end and its journal come of it, by one worker and by four."""
    for text, short, end, entries in OUTSIDES:
        right = journal_text(entries)
        printed = f"{end}\nsteps {right.count('step')}\n"
        for workers in ("1", "4"):
            said, journal = with_outside(program, folder, text, short, workers)
            yield f"{short!r} by {workers}, {end}", said == [printed, printed] and journal == right
    for short in LATE:
        said, journal = with_outside(program, folder, LONG, short, "2")
        yield f"{short!r}", said == ["success 1\nsteps 80028\n"] * 2
        before = journal.split("interrupt")[0].count("\n")
        yield f"the place of {short!r}", int(short.split()[1]) <= before <= 80026 and journal.count("\n") == 80029
    for at, workers in ((100_000, "1"), (300_000, "2"), (500_000, "4")):
        said, journal = with_outside(program, folder, FOUR, f"at {at} i77", workers)
        before = journal.split("interrupt")[0].count("\n")
        yield f"an event at {at} by {workers}", said == ["success 1\nsteps 800265\n"] * 2 and at <= before <= at + SLICE


def longest(program, folder):
    """Yields whether a long run reaches its end in a minute or two, with a journal and without."""
    journal, file = os.path.join(folder, "journal"), kept(folder, "longest", LONGEST)
    for more in ([], ["--trace", journal]):
        said = says(program, "run", file, "--workers", "2", *more)
        yield f"the longest loop {more}", said.endswith("binds 0\nsuccess 0\nsteps 900274\n")


def tried(program):
    with tempfile.TemporaryDirectory() as folder:
        yield from outsides(program, folder)
        yield from longest(program, folder)


def main():
    [program], _ = taken(sys.argv[1:], "sts")
    return tally.holding(tried(program))
