"""Tests the tests: plants mistakes in vectors/reader, and counts those that a case of vectors notices.

    python3 -m checks mistakes [--fit] [--quick] [--jobs N] [NAME ..]

It tries the mistakes of checks/mistakes/NAME.txt, or all of them. With --fit none is tried: the script looks whether each
can be planted. With --quick it leaves out short.jsonl, which takes long for each mistake that no other case notices.

A table begins with a line `file NAME`, a module of vectors/reader. A mistake is some lines with an empty line before it:

    # what it gets wrong
    - lines of the module, which it has once
    + lines in their place
    ? why no case can notice it, if none can

A case notices it by another answer, by an exception, or by no answer after a minute of computing. First all cases have to
pass without a mistake. A line is printed for each mistake that isn't what its table says, and one for each table. The last
line is that of all tables: `N noticed, M not noticed, K can't be noticed`. The status is 1 if a mistake had a line.
"""
import argparse
import collections
import glob
import itertools
import json
import multiprocessing
import os
import signal
import sys
import types
from checks.programs import ROOT

READER = f"{ROOT}/vectors/reader"
MODULES = ("program", "text", "checks", "listing", "trace", "faults", "machine", "budgets", "verifier", "__main__")
PATIENCE = 60  # The seconds of computing that a case may take.
SHORT = "short.jsonl"  # Its cases take long, so they are tried last.


class Mistake:
    """A mistake: its table, what it gets wrong, the module, the lines, those in their place, and why no case can notice it."""

    def __init__(self, table, module, lines):
        self.table, self.module = table, module
        self.what = lines[0][2:]
        self.old = "\n".join(it[2:] for it in lines if it.startswith("- "))
        self.new = "\n".join(it[2:] for it in lines if it.startswith("+"))
        self.why = " ".join(it[2:] for it in lines if it.startswith("? "))

    def planted(self):
        """Returns the source of the module with the mistake."""
        source = open(f"{READER}/{self.module}").read()
        if source.count(self.old) != 1 or not self.old:
            sys.exit(f"{self.table}: {self.module} doesn't have once what {self.what!r} is about")
        return source.replace(self.old, self.new)


def mistakes(path):
    """Returns the mistakes of a table."""
    first, *rest = open(path).read().strip("\n").split("\n\n")
    return [Mistake(os.path.basename(path), first[len("file "):], it.split("\n")) for it in rest]


def cases(is_quick):
    """Returns all cases of vectors, those that take long last, or left out."""
    paths = sorted(glob.glob(f"{ROOT}/vectors/*.jsonl"), key=lambda it: (it.endswith(SHORT), it))
    paths = [it for it in paths if not is_quick or not it.endswith(SHORT)]
    return [json.loads(line) for path in paths for line in open(path)]


def reader(module=None, source=None):
    """Returns the main module of the reader, with another source of one of its modules."""
    package = sys.modules["checks"]  # (the reader has a module of this name, which is of no use once all are made)
    for name in MODULES:
        is_main = name == "__main__"
        made = types.ModuleType("reader" if is_main else name)
        made.__file__ = f"{READER}/{name}.py"
        sys.modules["reader" if is_main else name] = made
        text = source if f"{name}.py" == module else open(made.__file__).read()
        exec(compile(text, made.__file__, "exec"), made.__dict__)
    sys.modules["checks"] = package
    return sys.modules["reader"]


def late(*_):
    raise TimeoutError


def notices(answer, agrees, case):
    """Returns whether a case notices that a reader is wrong."""
    signal.setitimer(signal.ITIMER_VIRTUAL, PATIENCE)
    try:
        return not agrees(answer(case), case["expected"])
    except Exception:
        return True
    finally:
        signal.setitimer(signal.ITIMER_VIRTUAL, 0)


def tried(mistake):
    """Returns the name of the first case that notices a mistake, or None."""
    signal.signal(signal.SIGVTALRM, late)
    try:
        wrong = reader(mistake.module, mistake.planted())
    except SyntaxError as error:
        sys.exit(f"{mistake.table}: {mistake.what}: {error}")
    # An order that finds most mistakes early: the cases that the last ones noticed come first.
    found = next((case for case in CASES if notices(wrong.answer, AGREES, case)), None)
    if found and found is not CASES[0]:
        CASES.remove(found)
        CASES.insert(0, found)
    return found and found["name"]


def tally(counts):
    return ", ".join(f"{counts[it]} {it}" for it in ("noticed", "not noticed", "can't be noticed"))


def main():
    global CASES, AGREES
    options = argparse.ArgumentParser(description=__doc__.split("\n")[0])
    options.add_argument("--jobs", type=int, default=2)
    options.add_argument("--quick", action="store_true")
    options.add_argument("--fit", action="store_true")
    options.add_argument("names", nargs="*")
    asked = options.parse_args()
    tables = [f"{ROOT}/checks/mistakes/{it}.txt" for it in asked.names] or sorted(glob.glob(f"{ROOT}/checks/mistakes/*.txt"))
    planted = [it for path in tables for it in mistakes(path)]
    for it in planted:
        compile(it.planted(), it.what, "exec")
    if asked.fit:
        print(f"{len(planted)} mistakes can be planted")
        return 0
    CASES, right = cases(asked.quick), reader()
    AGREES = right.agrees
    wrong = [it["name"] for it in CASES if notices(right.answer, AGREES, it)]
    if wrong:
        sys.exit(f"mistakes.py: the reader is wrong without a mistake: {wrong[:5]}")
    total, surprises = collections.Counter(), 0
    with multiprocessing.Pool(asked.jobs) as pool:
        for table, results in itertools.groupby(zip(planted, pool.imap(tried, planted)), lambda it: it[0].table):
            counts = collections.Counter()
            for it, name in results:
                counts["noticed" if name else "can't be noticed" if it.why else "not noticed"] += 1
                if bool(name) == bool(it.why):
                    surprises += 1
                    print(f"{it.table}: {it.what}: " + (f"noticed by {name}" if name else "not noticed"), flush=True)
            print(f"{table}: {tally(counts)}", flush=True)
            total += counts
    print(tally(total))
    return 1 if surprises else 0
