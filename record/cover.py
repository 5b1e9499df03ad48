#!/usr/bin/env python3
"""Do the ends of joined recordings cover every end that free runs come to?  usage: record/cover.py [options] [PROGRAM ..]

Runs each program 200 times with random delays. The recordings of one handler are joined into one text, first one of them, then more,
until `look ends` finds every end that one of the runs came to. An end that the text calls "not recorded" covers nothing.

Status 0: each handler is covered; 1: one isn't; 3: no JDK 25 was found, so nothing was recorded.
"""
import argparse
import glob
import os
import sys
import tempfile

HERE = os.path.dirname(os.path.realpath(__file__))
sys.path[:0] = [HERE, os.path.join(os.path.dirname(HERE), "jdk")]
import jdk25  # noqa: E402
import recording  # noqa: E402
import runs  # noqa: E402
import texts  # noqa: E402
from looking import Programs, options  # noqa: E402
from named import Shown  # noqa: E402
from reports import ends_of, plural  # noqa: E402

PARTS = (1, 2, 3, 5, 8, 13, 20, 30, 50, 80, 120, 200)
FEWER = {"Quotes": "4", "Fan": "5", "Tree": "4"}  # so many subtasks, since more can't be searched


def number(path):
    return int(path.rsplit("-", 1)[1].split(".")[0])


def found(programs, text, search, room):
    """Returns the names of the ends that `look ends` finds, and what it says of the search."""
    path = os.path.join(room, "joined.sts")
    with open(path, "w") as file:
        file.write(text)
    found, shown = programs.ends(path, search), Shown(text)
    return {shown.fault(it) if it.startswith("fault") else shown.end(it) for _, it, _ in found.ends}, found.last


def covered(programs, group, most, room):
    """Returns how many recordings were joined, the ends that still lack, and what the last search said."""
    lacking, last, parts = None, "", [it for it in PARTS if it < len(group)] + [len(group)]
    for part in parts:
        text, made = texts.searched(group[:part])
        ends, last = found(programs, text, options(group, most), room)
        lacking = [it for it in came(group, made, text, part) if it not in ends]
        if not lacking:
            return part, lacking, last, len(made.dice)
    return parts[-1], lacking, last, len(made.dice)


def came(group, made, text, part):
    """Returns the names of the ends of all recordings. Those that aren't in the text are named as in a text of all."""
    if part < len(group):
        text, made = texts.searched(group)
    return ends_of(group, made, text)


def main():
    reads = argparse.ArgumentParser(description="Do the ends of joined recordings cover every end that free runs come to?")
    reads.add_argument("programs", nargs="*")
    reads.add_argument("--times", type=int, default=200)
    reads.add_argument("--delay", type=int, default=300)
    reads.add_argument("--most", type=int, default=1_000_000, help="states of a search (1000000)")
    reads.add_argument("--sts")
    reads.add_argument("--look")
    reads.add_argument("--keep", help="a folder for the recordings")
    asked = reads.parse_args()
    home = jdk25.find_jdk()
    if home is None:
        print("no JDK 25 was found, so nothing was recorded")
        return jdk25.NO_JDK
    programs, failures = Programs(asked.sts, asked.look), 0
    with tempfile.TemporaryDirectory() as room:
        ran = runs.Runs(home, asked.keep or room)
        for name in asked.programs or [it for it in ran.names() if runs.is_service(it)]:
            folder = ran.record(name, min(asked.times, runs.SLOW.get(name, asked.times)), "most=1000000", f"delay={asked.delay}", size=FEWER.get(name))
            handlers = {}
            for path in sorted(glob.glob(f"{folder}/*.rec"), key=number):
                it = recording.read(path)
                handlers.setdefault(it.site, []).append(it)
            for site, group in sorted(handlers.items()):
                part, lacking, last, dice = covered(programs, group, asked.most, room)
                failures += bool(lacking)
                print(f"{name}, {site.line}: {part} of {len(group)} different recordings cover every end of the runs" if not lacking else
                      f"{name}, {site.line}: {part} of {len(group)} recordings lack {lacking}", f"({last}; the program decides at {plural(dice, 'line')})", flush=True)
    return 1 if failures else 0


if __name__ == "__main__":
    sys.exit(main())
