"""Proves and tests the crates that changed since a revision, and those above them. Tries the must-fail edits of the changed ones.

    python3 -m checks changed REV

For the hours between two runs of the gate: it goes over what earlier checks kept, so only `rt ci` is the verdict.
"""
import os
import subprocess
import sys

from checks.build.sources import ROOT, crates, needed
from checks.programs import door


def changed_since(revision, names):
    """Returns the crates with a file, other than README.md, that differs from the revision's or that git doesn't know yet."""
    asked = [["git", "diff", "--name-only", revision], ["git", "ls-files", "--others", "--exclude-standard"]]
    files = [it for words in asked for it in subprocess.check_output(words, cwd=ROOT, text=True).split("\n")]
    folders = {it.split("/")[1] for it in files if it.startswith("crates/") and not it.endswith("/README.md")}
    return [it for it in names if it in folders]


def said(words, folder):
    """Runs a command and returns whether it succeeded. Its output is shown only if it failed."""
    ran = subprocess.run(words, cwd=folder, stdin=subprocess.DEVNULL, stdout=subprocess.PIPE, stderr=subprocess.STDOUT, text=True)
    if ran.returncode:
        print("\n".join(ran.stdout.rstrip().split("\n")[-20:]))
    return not ran.returncode


def main():
    if len(sys.argv) != 2:
        print(__doc__, file=sys.stderr)
        return 2
    below = crates()
    ordered = []
    for name in below:
        needed(below, name, ordered)
    changed = changed_since(sys.argv[1], ordered)
    above = [it for it in ordered if set(changed) & set(needed(below, it, []))]
    passed, failed = 0, 0
    for name in above:
        folder = f"{ROOT}/crates/{name}"
        tried = {"proof": ["rt", "check"], "tests": ["rt", "test"]}
        if name in changed and os.path.isdir(f"{folder}/must-fail"):
            tried["edits"] = ["rt", "must-fail", name]
        if name in changed and os.path.isdir(f"{ROOT}/checks/named/{name}"):
            tried["named edits"] = door("named", name)
        for what, words in tried.items():
            well = said(words, ROOT if "edits" in what else folder)
            print(f"{name}: {what} {'passed' if well else 'FAILED'}", flush=True)
            passed, failed = passed + well, failed + (not well)
    print(f"{passed} passed, {failed} failed")
    return 1 if failed else 0
