#!/usr/bin/env python3
"""Draws three runs by `look draw`, as SVG files next to this script.

run_sum.svg        examples/sum: forks, a join that waits, ends
run_failure.svg    examples/failure_stops_siblings: a failure cancels a scope and interrupts
run_deadline.svg   examples/deadline: a scope's time is up

    docs/pictures/drawn.py            writes the files, with the program that ./look builds
    docs/pictures/drawn.py --check    says whether the files are what it would write (status 1 if not)
"""
import os
import subprocess
import sys

HERE = os.path.dirname(os.path.realpath(__file__))
ROOT = os.path.dirname(os.path.dirname(HERE))
RUNS = {"run_sum.svg": "sum", "run_failure.svg": "failure_stops_siblings", "run_deadline.svg": "deadline"}


def runs(look):
    """Yields the path of each picture, and what `look draw` prints of its example."""
    for name, example in RUNS.items():
        files = [f"examples/{example}.{it}" for it in ("sts", "trace")]
        done = subprocess.run([look, "draw", *files], stdin=subprocess.DEVNULL, capture_output=True, timeout=120, cwd=ROOT)
        yield os.path.join(HERE, name), done.stdout


def stale(look):
    """Yields the pictures that aren't what `look draw` prints."""
    for path, picture in runs(look):
        if not os.path.exists(path) or open(path, "rb").read() != picture:
            yield path


def main():
    look = os.path.join(ROOT, "look")
    if sys.argv[1:] == ["--check"]:
        old = list(stale(look))
        print(f"{len(RUNS) - len(old)} passed, {len(old)} failed")
        return 1 if old else 0
    for path, picture in runs(look):
        with open(path, "wb") as file:
            file.write(picture)
    return 0


if __name__ == "__main__":
    sys.exit(main())
