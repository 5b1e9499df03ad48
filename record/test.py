#!/usr/bin/env python3
"""Tests the recorder.  usage: record/test.py [write|show] [NAME ..] [options]

    record/test.py          compares what record/look prints of the stored recordings with record/outputs; and, with a JDK 25,
                            records the programs again, the edges of the agent too
    record/test.py write    makes the recordings and the outputs again; with names, those of these programs
    record/test.py show     makes only the outputs again, and what docs/RECORD.md shows of them

The first part needs no JDK. Status 0: all is as it should be; 1: something isn't. Without a JDK 25 it says what it left out.
"""
import argparse
import concurrent.futures
import difflib
import glob
import os
import re
import shutil
import subprocess
import sys
import tempfile

HERE = os.path.dirname(os.path.realpath(__file__))
ROOT = os.path.dirname(HERE)
sys.path[:0] = [HERE, os.path.join(ROOT, "jdk"), ROOT]
import agent_edges  # noqa: E402
import jdk25  # noqa: E402
import judging_edges  # noqa: E402
import runs  # noqa: E402
import writing_edges  # noqa: E402

OUTPUTS, RECORDINGS = os.path.join(HERE, "outputs"), os.path.join(HERE, "recordings")
PAGE = os.path.join(ROOT, "docs", "RECORD.md")
WARM = 4  # runs, of which the last recording is stored, since the first one has cold code
JOINED = {"Orders": 12}  # all of so many runs are stored
SIZES = {"Fan": "5", "Tree": "4", "Quotes": "4"}  # so that the search ends


def shown():
    """Returns the programs whose recordings are stored: the services, and the examples that open a scope."""
    return [it for it, path in runs.sources().items() if "/differences/" not in path and it not in runs.UNSCOPED]


def looked(name, programs):
    """Returns what record/look prints of the stored recordings of a program; pictures go to a folder that is thrown away."""
    with tempfile.TemporaryDirectory() as room:
        shutil.copytree(f"{RECORDINGS}/{name}", f"{room}/recorded")
        found = sorted(os.path.basename(it) for it in glob.glob(f"{room}/recorded/*.rec"))
        words = ["--hangs"] if name in runs.HANGING else []
        said = subprocess.run([f"{HERE}/look", *words, *programs, *[f"recorded/{it}" for it in found]], cwd=room, capture_output=True, text=True)
        return said.stdout + said.stderr


def blocks(page):
    """Returns the page with the blocks that its marks `<!-- output: NAME SECTION -->` ask for; without SECTION, the whole output."""
    def block(mark):
        name, section = re.match(r"(\w+) ?(.*)$", mark[1]).groups()
        with open(f"{OUTPUTS}/{name}.txt") as file:
            text = file.read().rstrip("\n")
        if section:
            text = re.search(rf"^{re.escape(section)}.*?(?=^\S|\Z)", text, re.M | re.S)[0].rstrip("\n") if re.search(rf"^{re.escape(section)}", text, re.M) else ""
            text = text if text else "missing"
        return f"<!-- output: {mark[1]} -->\n```text\n{text}\n```\n<!-- end of the output -->"
    return re.sub(r"<!-- output: (.*?) -->(?:\n```text\n.*?\n```\n<!-- end of the output -->)?", block, page, flags=re.S)


def compare(programs):
    failures = []
    with open(PAGE) as file:
        page = file.read()
    if blocks(page) != page:
        failures.append("docs/RECORD.md, which shows other outputs")
    with concurrent.futures.ThreadPoolExecutor() as pool:
        outputs = list(pool.map(lambda name: looked(name, programs), shown()))
    for name, printed in zip(shown(), outputs):
        path = f"{OUTPUTS}/{name}.txt"
        expected = open(path).read() if os.path.exists(path) else ""
        if printed != expected:
            failures.append(name)
            print("".join(difflib.unified_diff(expected.splitlines(True), printed.splitlines(True), path, "printed")), end="")
    print(f"{len(shown())} programs, {len(failures)} outputs differ" + (f": {', '.join(failures)}" if failures else ""))
    return len(failures)


def write(home, programs, names):
    os.makedirs(OUTPUTS, exist_ok=True)
    os.makedirs(RECORDINGS, exist_ok=True)
    with tempfile.TemporaryDirectory() as room:
        ran = runs.Runs(home, os.environ.get("RECORD_ROOM", room))
        for name in names:
            words, times = (["dump=2"], 1) if name in runs.HANGING else ([], JOINED.get(name, WARM))
            folder = ran.record(name, times, *words, size=SIZES.get(name))
            shutil.rmtree(f"{RECORDINGS}/{name}", ignore_errors=True)
            os.makedirs(f"{RECORDINGS}/{name}")
            store(folder, name)
    show(programs, names)


def store(folder, name):
    """Stores all recordings of a folder, or the last one of each handler, with new numbers."""
    handlers = {}
    for path in sorted(glob.glob(f"{folder}/*.rec"), key=number):
        handlers.setdefault(os.path.basename(path).rsplit("-", 1)[0], []).append(path)
    for handler, paths in handlers.items():
        for n, path in enumerate(paths if name in JOINED else paths[-1:], 1):
            shutil.copy(path, f"{RECORDINGS}/{name}/{handler}-{n}.rec")


def number(path):
    return int(path.rsplit("-", 1)[1][:-len(".rec")])


def show(programs, names):
    for name in names:
        with open(f"{OUTPUTS}/{name}.txt", "w") as file:
            file.write(looked(name, programs))
    with open(PAGE) as file:
        page = file.read()
    with open(PAGE, "w") as file:
        file.write(blocks(page))


def main():
    reads = argparse.ArgumentParser(description="Tests the recorder.")
    reads.add_argument("what", nargs="?", choices=["write", "show"])
    reads.add_argument("names", nargs="*", help="the programs to write (all)")
    reads.add_argument("--sts")
    reads.add_argument("--look")
    asked = reads.parse_args()
    programs = [word for name in ("sts", "look") if getattr(asked, name) for word in (f"--{name}", os.path.abspath(getattr(asked, name)))]
    home = jdk25.find_jdk()
    if asked.what == "show":
        show(programs, asked.names or shown())
        return 0
    if asked.what == "write":
        if home is None:
            print("no JDK 25 was found, so nothing was recorded")
            return jdk25.NO_JDK
        write(home, programs, asked.names or shown())
        return 0
    failures = compare(programs) + judging_edges.test(programs) + writing_edges.test()
    if home is None:
        print("no JDK 25 was found: the agent and fresh recordings were NOT tested")
    else:
        failures += agent_edges.test(home)
    return 1 if failures else 0


if __name__ == "__main__":
    sys.exit(main())
