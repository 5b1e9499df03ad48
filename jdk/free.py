"""Runs programs on the JDK as they come, with no player at the gates, and looks for each outcome among all ends: those that
`look ends` lists by the rules, and those that a known difference or the steps of the JDK add."""
import re
import subprocess

from checks.models import all_ends
import cases
from checks.documents import pages
import drawn
import known
from checks.models import stack_code
from player import Case

DRAWN = 24            # how many drawn programs are run
MOST_STATES = 8_000   # of a search
MOST_BY_LOOK = 30_000 # of a search by `look ends`, which doesn't run local instructions on at once
IN_ONE_JVM = 6        # programs


class Freely:
    def __init__(self):
        self.programs = self.runs = self.by_rules = self.differing = self.added = self.left_out = 0
        self.names, self.failures = [], []


class FineJdkMachine(known.JdkMachine, all_ends.FineMachine):
    """The machine with the known differences, where an end has the steps that it has in the JDK."""


def by_rules(look, text):
    """Returns the ends that `look ends` lists of all schedules; None if it stopped before it had them all."""
    words = [look, "ends", "-", "--no-expiries", "--most", str(MOST_BY_LOOK)]
    printed = subprocess.run(words, input=text, capture_output=True, text=True).stdout
    if not re.search(r"^\d+ states, all schedules$", printed, re.M):
        return None
    return set(re.findall(r"^\d+ after \d+ events: (.*)$", printed, re.M))


def ends_of(look, text):
    """Returns the ends by the rules, those that known differences add, and those that the JDK's own steps add; None for a
    program that can come to a fault, or has too many states."""
    program, found = stack_code.program(text), [by_rules(look, text)]
    if found[0] is None:
        return None
    for machine in (known.JdkMachine, FineJdkMachine):
        ends, _, are_all = all_ends.ends(program, machine, most=MOST_STATES)
        if not are_all or any(it.startswith("fault") for it in ends):
            return None
        found.append(ends)
    return found


def outcomes(player, part, count, threads):
    """Yields each program with its outcomes and how often each came."""
    for case, printed in zip(part, player.printed(part, f"free={count}", f"threads={threads}"), strict=True):
        yield case, {line.split(" ", 1)[1]: int(line.split(" ", 1)[0]) for line in printed}


def judged(look, player, part, count, threads):
    """Runs programs and returns what came of them."""
    result, known_ends = Freely(), {}
    fit = []
    for case in part:
        known_ends[case.name] = ends_of(look, case.text)
        if known_ends[case.name] is None:
            result.left_out += 1
        else:
            fit.append(case)
    for case, came in outcomes(player, fit, count, threads) if fit else ():
        rules, atomic, fine = known_ends[case.name]
        result.programs += 1
        for outcome, times in came.items():
            result.runs += times
            if outcome in rules:
                result.by_rules += times
            elif outcome in atomic:
                result.differing += times
                result.names.append(f"by a known difference: {case.name}: {outcome}, {times} times")
            elif outcome in fine:
                result.added += times
                result.names.append(f"added by the JDK's own steps: {case.name}: {outcome}, {times} times")
            else:
                ends = sorted(rules | atomic | fine)
                result.failures.append(f"{case.name} ran freely to {outcome}, {times} times: {ends}")
    return result


def texts(seed):
    """Returns the programs that are run: examples, patterns and drawn ones, without what no text can hold."""
    found = [Case("examples", it.name, it.text, ()) for it in cases.of_files()]
    found += [Case("patterns", name, text, ()) for name, text, _, _ in pages.programs("docs/PATTERNS.md")]
    return found + [Case("drawn", f"scopes {seed} {it}", drawn.drawn(f"free {seed}", it)[0], ()) for it in range(DRAWN)]


def run(pool, player, asked):
    found, total = texts(asked.seed), Freely()
    split = [found[at::len(found) // IN_ONE_JVM] for at in range(len(found) // IN_ONE_JVM)]
    given = [(asked.look, player, part, asked.free, ("virtual", "platform")[at % 2]) for at, part in enumerate(split)]
    for part in pool.map(judged, *zip(*given)):
        for name in ("programs", "runs", "by_rules", "differing", "added", "left_out", "names", "failures"):
            setattr(total, name, getattr(total, name) + getattr(part, name))
    for line in total.names:
        print(line)
    print(f"{total.left_out} programs of more than {MOST_STATES} states, or that can fault, were not run freely")
    return total
