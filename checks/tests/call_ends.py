"""Compares `look ends --calls` with a search in Python.  [LOOK|--unproved]

Of each example and pattern, without and with one interrupt:
- `tell --strict` of each trace says that a task of this call has ended so, and whether the joiner was told;
- a search over all orders, of up to 25,000 states, finds each line, if it isn't cut off;
- each end of a call that this search finds has a line. No proof says so of other programs.
The last line is `N passed, M failed`, of lines and of these ends.
"""
import glob
import re
import sys

from checks import programs
from checks.models import all_ends, plain_machine, stack_code
from checks.programs import ROOT
from checks.tally import Tally

MOST = 25_000
LINE = re.compile(r"(\d+) after (\d+) events: (\w+)(?:\((.*)\))?: (unheard )?(success|failed) (-?\d+)")


class Called(plain_machine.Task):
    """A task that keeps its arguments."""

    __slots__ = ("given",)

    def __init__(self, scope, function, arguments, started):
        self.given = tuple(arguments)
        super().__init__(scope, function, list(arguments), started)

    def copy(self):
        it = super().copy()
        it.given = self.given
        return it

    def key(self):
        return (*super().key(), self.given)


def searched(program, interrupts):
    """Returns the ends of calls in all states that a search finds, and whether these are all states."""
    first = plain_machine.Machine(program)
    all_ends.run_local(first)
    seen, waiting, found = {(first.key(), interrupts)}, [(first, interrupts)], set()
    while waiting:
        at, left = waiting.pop()
        found |= {(it.function, it.given, it.heard, it.end) for it in at.tasks[1:] if it.end}
        if at.fault or at.tasks[0].end:
            continue
        for it, fewer in all_ends.children(at, True, left):
            all_ends.run_local(it)
            key = it.key(), fewer
            if key not in seen:
                if len(seen) == MOST:
                    return found, False
                seen.add(key)
                waiting.append((it, fewer))
    return found, True


def listed(look, path, words):
    """Yields each line, the end of a call that it says, and the last lines of the story of its trace."""
    for line in filter(None, map(LINE.fullmatch, programs.says(look, "ends", path, "--calls", *words)[1].splitlines())):
        arguments = tuple(map(int, line[4].split(", "))) if line[4] else ()
        trace = programs.says(look, "ends", path, "--calls", *words, "--trace", line[1], "-")[1]
        story = programs.says(look, "tell", path, "-", "--strict", given=trace)[1]
        yield line, (arguments, not line[5], (line[6], int(line[7]))), trace.count("\n"), story.splitlines()


def compared(look, tally):
    """Compares all lines."""
    for path in sorted(glob.glob(f"{ROOT}/examples/*.sts") + glob.glob(f"{ROOT}/examples/patterns/*.sts")):
        with open(path) as file:
            program = stack_code.program(file.read())
        for interrupts in (0, 1):
            found, is_whole = searched(program, interrupts)
            found = {(program.functions[number].name, *rest) for number, *rest in found}
            lines = set()
            for line, said, events, story in listed(look, path, ["--interrupts", str(interrupts)]):
                told = f"{line[3]}{f'({line[4]})' if line[4] else ''}: {line[6]} {line[7]}{', not told' if line[5] else ''}"
                is_told = any(re.fullmatch(rf"task \d+, {re.escape(told)}", it) for it in story)
                tally.holds(f"{path}: {line[0]}", is_told and events == int(line[2]), story)
                lines.add((line[3], *said))
                tally.holds(f"{path}: {line[0]}", not is_whole or (line[3], *said) in found, "no search finds it")
            for it in sorted(found, key=str):
                tally.holds(f"{path}, {interrupts} interrupts: a line for {it}", it in lines, "no line")


def main():
    [look], _ = programs.taken(sys.argv[1:], "look")
    plain_machine.Task = Called
    tally = Tally()
    compared(look, tally)
    return tally.end()
