"""Prints which parts of a crate's proof take longest.

    python3 -m checks dear [--test] CRATE [FUNCTION ..]     such as python3 -m checks dear sts_args command::program

It proves the crate, or only these functions and what they call, with one job and nothing kept. With --test it proves the
tests, too. The crates below have to be built, as ./sts or ./look leaves them. The prover writes a file whenever it is done
with a module, and the seconds are those between two files. A function has several modules:

- `Lts` is the borrow checker's part. It grows with the steps of the body and with the values that are alive. So a body is
  dear if it has many ways out (`?`, `return`, arms) on which an owned value is dropped. A `Book` or a `Machine` takes some
  ten steps to drop. Make such a value last, or take it apart in a function of its own.
- `Proof` searches for the goals without an answer. A goal is dear if `search` fails before `grind` finds it. Write an
  answer that names the facts, in `proofs/PATH/FUNCTION/Answers.antt`.
- `Tie` and `Goals` connect the two. They follow the size of the body.

The status is that of the check."""
import collections
import os
import re
import subprocess
import sys
import tempfile

from checks import kit
from checks.build import sources

ROWS = 30
MODULE = re.compile(r"/Rattle-(\w+)-(?:specs|proofs)\.(.+)\.oantt$")
PARTS = ("Lts", "Tie", "Goals", "Answers", "Proof")


def check(crate, tests, functions, kept):
    """Checks the crate, or these functions, and returns the prover's status. `tests` is --test, or nothing."""
    only = [word for it in functions for word in ("--only", it)]
    with open(os.devnull, "w", encoding="utf-8") as crate.out:
        words = kit.checking(crate, [*tests, *only, "--incremental", kept])
    how = {"cwd": crate.folder, "stdin": subprocess.DEVNULL, "stdout": subprocess.PIPE, "stderr": subprocess.STDOUT}
    ran = subprocess.run(words, text=True, errors="replace", **how)
    print(*(it[:1000] for it in ran.stdout.splitlines() if not kit.OF_A_PROOF.match(it)), sep="\n")
    return ran.returncode


def seconds(crate, kept):
    """Returns the seconds of each module of the crate, by the times of the files."""
    files = [f"{at}/{it}" for at, _, found in os.walk(kept) for it in found if "/records" not in at]
    ours = [it for it in files if (match := MODULE.search(it)) and match[1] == crate.name]
    times = sorted((os.path.getmtime(it), MODULE.search(it)[2]) for it in ours)
    return [(after[0] - before[0], after[1]) for before, after in zip(times, times[1:])]


def report(modules):
    """Prints the sums of the parts, and the dearest modules."""
    parts = collections.Counter()
    for took, name in modules:
        last = name.rsplit(".", 1)[-1]
        parts[last if last in PARTS else "the rest"] += took
    print(", ".join(f"{part} {took:.1f}" for part, took in parts.most_common()), f"of {sum(parts.values()):.1f} seconds")
    for took, name in sorted(modules, reverse=True)[:ROWS]:
        print(f"{took:7.2f} {name}")


def main():
    words = sys.argv[1:]
    tests = [it for it in words[:1] if it == "--test"]
    name, *functions = words[len(tests) :] or [""]
    if not name or name.startswith("-"):
        print(__doc__)
        return 0 if name else 2
    if name not in sources.crates():
        print(f"checks dear: crates.txt has no crate {name}", file=sys.stderr)
        return 2
    crate = kit.crate(sources.ROOT, name, {})
    unbuilt = [it.name for it in crate.below() if not it.is_built()]
    if unbuilt:
        print(f"checks dear: these crates aren't built: {', '.join(unbuilt)}; ./sts or ./look builds them", file=sys.stderr)
        return 2
    with tempfile.TemporaryDirectory(prefix="sts-dear-") as kept:
        status = check(crate, tests, functions, kept)
        report(seconds(crate, kept))
    return status
