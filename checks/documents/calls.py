"""Prints each public call of a crate with its doc comment and its contract, file by file.  CRATE"""
import glob
import os
import re
import sys

from checks.programs import ROOT

HEAD = re.compile(r" *pub (?:const |unsafe |extern \"C\" )*fn |(?:pub )?(?:struct|enum|trait|impl)\b")


def calls(lines):
    """Yields each public call and each type of a file: its doc comment, its head and its contract, as lines."""
    doc = []
    for at, line in enumerate(lines):
        if line.strip().startswith("///"):
            doc.append(line)
        elif HEAD.match(line):
            is_call = " fn " in line
            if is_call or line.startswith(("pub", "impl")):
                end = next((k for k in range(at, len(lines)) if re.search(r"[{;]$", lines[k]) and (not is_call or lines[k].strip() == "{" or k == at)), at)
                yield doc + (lines[at:end] if is_call and end > at else [lines[at]])
            doc = []
        elif not line.strip().startswith("#["):
            doc = []


def main():
    if len(sys.argv) != 2 or not os.path.isdir(f"{ROOT}/crates/{sys.argv[1]}/src"):
        print(__doc__, file=sys.stderr)
        return 2
    for path in sorted(glob.glob(f"{ROOT}/crates/{sys.argv[1]}/src/**/*.rt", recursive=True)):
        with open(path) as file:
            lines = file.read().split("\n")
        found = [it for it in calls(lines) if any("pub " in line for line in it)]
        if found:
            head = next((it for it in lines if it.startswith("//! ")), "//! ")
            print(f"== {os.path.relpath(path, ROOT)}: {head[4:]}")
            print("\n\n".join("\n".join(it) for it in found), end="\n\n")
    return 0
