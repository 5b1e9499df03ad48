"""Calls the proved programs: `sts replay` and `look`, and reads what they print."""
import os
import re
import subprocess
import sys
import tempfile
from typing import NamedTuple

from named import without_names

HERE = os.path.dirname(os.path.realpath(__file__))
ROOT = os.path.dirname(HERE)
REFUSED, MOST_INTERRUPTS = 4, 2
LEAST_STATES, TASK_STATES = 100, 10_000_000  # of a search
SAMPLE = 50_000  # random schedules, if the search stops
BUILDS = {"sts": "verify examples/sum.sts", "look": "explain examples/sum.sts"}  # a call that builds a program


TASK = re.compile(r"task (\d+), .*: (ready|waits|never starts|(success|failed) -?\d+)(, not told)?$")
IDLE = re.compile(r"(\d+) idle(?: interrupt| expiry)?: (.*)$")


class Told(NamedTuple):
    """What `look tell --strict` says of a run: how each task ended, and the first event that doesn't count, if there is one."""
    tasks: dict      # the words of each task, by its number
    idle: str        # "event 7 doesn't count: task 1, ask has ended"


class Search(NamedTuple):
    ends: list       # (number, words, options of the search that found it)
    last: str        # "70 states, all schedules"
    is_whole: bool


def options(recordings, most):
    """Returns the options of a search: as many interrupts from outside as a recording has, but not more than two.

    A state needs memory for each task, so with many tasks fewer states are kept.
    """
    interrupts = max(sum(kind == "interrupt" for kind, _ in it.events) for it in recordings)
    tasks = max(len(it.tasks) for it in recordings)
    return ["--most", str(max(LEAST_STATES, min(most, TASK_STATES // tasks))), *(["--interrupts", str(min(interrupts, MOST_INTERRUPTS))] if interrupts else [])]


class Programs:
    """`sts` and `look`: those that are given, or the built ones, or the ones that were built without proofs.

    Except for pictures they are given texts without names, and record/look puts the names in (named.py).
    """

    def __init__(self, sts=None, look=None):
        self.sts, self.look = sts or self.found("sts"), look or self.found("look")
        self.room = tempfile.TemporaryDirectory(prefix="record-")

    def bare(self, text):
        """Writes a text without its names, line by line, and returns the path."""
        path = os.path.join(self.room.name, "bare.sts")
        with open(text) as file, open(path, "w") as to:
            to.write(without_names(file.read()))
        return path

    @staticmethod
    def found(name):
        built = f"{ROOT}/crates/{name}/out/{name}"
        found = next((it for it in (built, f"{built}.unproved") if os.path.exists(it)), None)
        if found is None:
            raise SystemExit(f"record/look: {name} isn't built. To build it: ./{name} {BUILDS[name]}, or without proofs in some minutes: ./{name} --unproved {BUILDS[name]}")
        if found != built and sys.stderr.isatty():
            print(f"record/look: {name} was built without its proofs", file=sys.stderr)
        return found

    @staticmethod
    def says(*words):
        done = subprocess.run(words, stdin=subprocess.DEVNULL, capture_output=True, text=True)
        if not done.stdout and done.returncode:
            raise SystemExit(f"{' '.join(words)}: {done.stderr.strip() or 'status ' + str(done.returncode)}")
        return done.returncode, done.stdout

    def replay(self, text, trace):
        """Returns what `sts replay` prints, or `sts plain` if the text is refused, and whether it is."""
        status, said = self.says(self.sts, "replay", self.bare(text), trace)
        if status != REFUSED:
            return said.splitlines(), False
        return self.says(self.sts, "plain", self.bare(text), trace)[1].splitlines(), True

    def told(self, text, trace):
        """Returns what `look tell --strict` says of a run. It stops at the first event that doesn't count."""
        tasks, idle = {}, ""
        for line in self.says(self.look, "tell", self.bare(text), trace, "--strict")[1].splitlines():
            if m := TASK.match(line):
                tasks[int(m[1])] = f"{'unheard ' if m[4] else ''}{m[2].replace('never starts', 'never-started')}"
            elif m := IDLE.match(line):
                idle = f"event {m[1]} doesn't count: {m[2]}"
        return Told(tasks, idle)

    def states(self, text, trace):
        """Returns the words of each task after the whole trace, also if some events don't count."""
        lines = self.says(self.look, "view", self.bare(text), trace)[1].splitlines()
        found = [m for it in lines if (m := re.match(r"task (\d+) under \S+ in \S+ at \d+, (?:(?:after )?line \d+|its end) (.*?)( interrupted)?$", it))]
        return {int(m[1]): m[2] for m in found}

    def explain(self, text, *trace):
        return self.says(self.look, "explain", self.bare(text), *trace)[1].splitlines()

    def ends(self, text, search):
        """Returns every end that `look ends` finds; `search` has its options. If it stops, random schedules add ends."""
        found, last = self.found_ends(text, search)
        if last.endswith(", all schedules"):
            return Search(found, last, True)
        sample = [*search[2:], "--sample", str(SAMPLE)]
        known = {words for _, words, _ in found}
        return Search(found + [it for it in self.found_ends(text, sample)[0] if it[1] not in known], last, False)

    def found_ends(self, text, search):
        said = self.says(self.look, "ends", self.bare(text), *search)[1].splitlines()
        ends = [(int(m[1]), m[2], search) for it in said if (m := re.match(r"(\d+) after \d+ events(?:, in \d+ of \d+ schedules)?: (.*)$", it))]
        return ends, said[-1] if said else "nothing"

    def trace(self, text, search, number, path):
        """Writes a trace that comes to an end."""
        self.says(self.look, "ends", self.bare(text), *search, "--trace", str(number), path)

    def draw(self, text, trace):
        return self.says(self.look, "draw", text, trace)[1]
