"""Runs what the documents show of the programs, and compares it.  [write] [STS LOOK|--unproved] [SUBJECT ..]

The subjects are modules of this folder, and all are tried if none is named:
- `commands`: each command of README.md and docs/TUTORIAL.md;
- `runs`: runs by workers, traces and lines for a shell in README, LANGUAGE, VERIFIER, PATTERNS and examples/README;
- `looks`: what docs/LOOK.md shows of `view`, `explain` and `draw`;
- `refusals`: what `explain` prints of the refused texts of docs/VERIFIER.md and docs/PATTERNS.md;
- `ends`: the ends that LOOK, PATTERNS and BEHAVIOUR show.
With `write`, what is printed now is written into the documents, for `commands` and `refusals`; the others are only compared.
documents.py makes rows of the texts that documents show, and crates/tests_rows tries these.
The last line is `N passed, M failed`, of comparisons.
"""
import importlib
import sys

from checks import programs, tally

SUBJECTS = ("commands", "runs", "looks", "refusals", "ends")
WRITTEN = ("commands", "refusals")


def tried(sts, look, subjects, is_writing):
    for it in subjects:
        shown = importlib.import_module(f"checks.shown.{it}").shown
        yield from shown(sts, look, is_writing) if it in WRITTEN else shown(sts, look)


def main():
    words = sys.argv[1:]
    is_writing = words[:1] == ["write"]
    (sts, look), subjects = programs.taken(words[is_writing:], "sts", "look")
    return tally.holding(tried(sts, look, tally.parts(subjects, SUBJECTS), is_writing))
