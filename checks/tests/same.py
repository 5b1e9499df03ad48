"""Compares what two builds of `sts` print, byte by byte, with their statuses.  OLD NEW [options]

Use it where a change leaves the standard output of `sts` as it was. OLD may be a build without proofs of an older commit,
by that commit's `./sts --unproved`. Both programs get the same words and files:
- each row of crates/tests_rows/data, by each command that python3 -m checks rows asks;
- each example: `verify`, `list`, `plain`, `replay`, `run` by one worker with its outside text, and the joined input;
- cases that python3 -m checks differ draws: the same;
- words that are mistaken or ask for help.
By one worker both builds take the same steps unless the scheduler was changed. So a run that differs is only counted apart.
Standard error is free. The last line is `N passed, M failed`, of calls.
"""
import argparse
import glob
import os
import tempfile

from checks import notation
from checks.programs import ROOT, kept, says
from checks.tally import Tally
from checks.tests import differ

WORDS = [["--help"], ["help"], ["help", "run"], ["verify", "--help"], ["run", "--help"], ["verify"], ["frobnicate"], ["--version"],
         ["plain", "text"], ["run", "text"], ["run", "text", "--workers", "0"], ["run", "text", "--workers", "17"], ["verify", "none"],
         ["plain", "text", "none"], ["run", "text", "--workers", "1", "--outside", "none"], ["run", "text", "--workers", "1", "--trace", "no/folder"],
         ["verify", "-"], ["verify", "."], ["list", "text", "text"], [""]]


class Two:
    """Two programs in a folder, and how many calls gave the same and not."""

    def __init__(self, old, new, folder):
        self.programs, self.folder = (old, new), folder
        self.tally, self.runs, self.other_runs = Tally(), 0, 0

    def said(self, program, words, given):
        return says(program, *words, given=given, cwd=self.folder, seconds=600, is_text=False)

    def asks(self, what, words, given=b""):
        """Asks both programs, and counts whether they say the same."""
        old, new = (self.said(it, words, given) for it in self.programs)
        self.tally.holds(f"{what}: {words}", old == new, f"{old}, then {new}")

    def runs_alike(self, words):
        """Asks both for a run and its journal, counts whether they say the same, and returns what they say."""
        answers = []
        for program in self.programs:
            answers.append((*self.said(program, [*words, "--trace", "journal"], b""), self.taken("journal")))
        self.runs, self.other_runs = self.runs + 1, self.other_runs + (answers[0] != answers[1])
        return answers

    def taken(self, name):
        path = os.path.join(self.folder, name)
        if not os.path.exists(path):
            return None
        with open(path, "rb") as file:
            content = file.read()
        os.remove(path)
        return content

    def put(self, name, content):
        kept(self.folder, name, content)

    def case(self, what, text, events, due=None):
        """Tries all commands over a text and its events."""
        self.put("text", text)
        self.put("trace", events)
        for words in (["verify", "text"], ["list", "text"], ["plain", "text", "trace"], ["replay", "text", "trace"]):
            self.asks(what, words)
        self.asks(what, [], text + b"%\n" + events)
        if due is None:
            return
        self.put("due", due)
        old, new = self.runs_alike(["run", "text", "--workers", "1", "--outside", "due"])
        if old != new and (old[0] in (0, 1)) != (new[0] in (0, 1)):
            self.tally.holds(f"{what}: run", False, f"{old}, then {new}")


def of_rows(two):
    for name in notation.tables():
        for number, text, asked, events, _ in notation.rows(f"{notation.DATA}/{name}"):
            what = f"{name} line {number}"
            if asked == "joined":
                two.asks(what, [], text)
            elif asked == "outside":
                continue  # It reads no text, and a run by workers has no fixed end.
            else:
                two.case(what, text, events)


def of_examples(two):
    for path in sorted(glob.glob(f"{ROOT}/examples/*.sts") + glob.glob(f"{ROOT}/examples/refused/*.sts")):
        files = [path.removesuffix("sts") + it for it in ("sts", "trace", "outside")]
        text, events, due = (open(it, "rb").read() if os.path.exists(it) else b"" for it in files)
        two.case(os.path.relpath(path, ROOT), text, events, due)


def of_words(two):
    two.put("text", b"func main 0\npush 7\nret\nend\n")
    for words in WORDS:
        two.asks("words", words)


def of_cases(two, seed, numbers):
    for number in numbers:
        text, events, _, due = differ.drawn(seed, number)
        two.case(f"case {number}", text.encode(), events.encode(), due.encode())


def main():
    reads = argparse.ArgumentParser(description="Compares what two builds of sts print.")
    reads.add_argument("old")
    reads.add_argument("new")
    reads.add_argument("--cases", type=int, default=10_000, help="how many cases are drawn (10000)")
    reads.add_argument("--first", type=int, default=0, help="the number of the first case (0)")
    reads.add_argument("--seed", type=int, default=44, help="what the cases are drawn from (44)")
    reads.add_argument("--only-cases", action="store_true", help="no rows, examples and words")
    asked = reads.parse_args()
    with tempfile.TemporaryDirectory() as folder:
        two = Two(os.path.realpath(asked.old), os.path.realpath(asked.new), folder)
        if not asked.only_cases:
            for tried in (of_words, of_examples, of_rows):
                tried(two)
                print(f"{tried.__name__}: {two.tally.passed} the same so far", flush=True)
        of_cases(two, asked.seed, range(asked.first, asked.first + asked.cases))
    print(f"{two.runs} runs by one worker, {two.other_runs} that differ in their journal or what they print")
    return two.tally.end()
