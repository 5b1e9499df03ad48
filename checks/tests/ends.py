"""Compares `look ends` with a search in Python.  [LOOK [STS]|--unproved] [PART ..] [--count N] [--seed S]

The programs are the examples, those of docs/PATTERNS.md, and drawn ones: races with several ends, nested scopes, and
scopes that are misused. Each is asked with expiries and without, and with an interrupt.

- `look ends` prints each end that all_ends.py finds, once, and no other: with the function and the line of a fault, and
  with the status 0. What all_ends.py searches is the machine of plain_machine.py, which shares no code with the crates.
- It says how many states it kept: as many as a search in Python in the same order.
- It says `refused, but no run .. faults` of just those texts that `sts verify` refuses and that have no fault among their ends.
  The words between name the events that may come.
- The trace of each end, as `--trace` writes it, has as many events as its line says, and `sts` comes to that end by it:
  in mode `replay`, or in mode `plain` if the text is refused.
- `--sample` finds no other end. `--most` stops with status 5, unless a table of calls shows that there is no other end.
- `--json` says the same as the lines.
- The sets of ends.rows, worked out by hand, are those that `look ends` prints, as two compilers build it.
- Random schedules find each end of some races, and of the programs in checks/sampled, which have deadlines, also with one and
  two interrupts. Another seed gives another listing, and the same seed the same one. A schedule may have 100,000 events, and no
  more (`schedules_of_look`).
- Searches of some larger programs keep as many states as are counted by hand or by all_ends.py (`searches_of_look`).
- A table of calls shows that programs with 16 and 50 subtasks have just the ends that were worked out by hand. It does so for
  programs that are interrupted, unless each end that it has too many takes more interrupts. A search by calls finds the ends that
  the search over all schedules finds of drawn programs (`calls_of_look`; with `--count 600`, of some 3,000 questions).
- So it is with refused programs with 50 and 200 subtasks that never fault. If one may fault, `look ends` doesn't say that it has
  all ends. Drawn programs of which a table says that no run faults have no fault, and just those ends, by all_ends.py
  (`refused_of_look`).
A program with more than MOST_STATES states is left out. With a PART, which is `schedules_of_look`, `searches_of_look`,
`calls_of_look` or `refused_of_look`, only that is tried. The last line is `N passed, M failed`, of comparisons.
"""
import argparse
import concurrent.futures
import glob
import json
import math
import os
import random
import re
import sys
import tempfile

from checks import notation, programs
from checks.documents import pages
from checks.models import all_ends, seeing, stack_code
from checks.programs import CHECKS, ROOT
from checks.tally import Tally, parts
from checks.tests.places import place_words

sys.path.insert(0, f"{ROOT}/jdk")
import drawn  # noqa: E402

MOST_STATES = 1500  # of a search in Python
REFUSED = 4
LINE = re.compile(r"(\d+) after (\d+) events: (.*)")
SHARE = re.compile(r"(\d+) after (\d+) events, in (\d+) of (\d+) schedules: (.*)")
WORDS = ("failed", "success", "atleast")
QUESTIONS = ((True, 0), (False, 0), (True, 1))  # may scopes expire, and how many interrupts come?


def says(*words):
    """Returns the status, and the lines that are printed."""
    status, printed = programs.says(*words, seconds=300)
    return status, printed.splitlines()


def by_line(source, end):
    """Returns an end in the words of `look ends`."""
    fault = re.fullmatch(r"fault (\w+) task (\d+) in (\S+) at (\d+)", end)
    if not fault:
        return end
    kind, task, name, pc = fault.groups()
    return f"fault {kind}, task {task} in {place_words(source, name, int(pc))}"


def options(expiries, interrupts):
    return [*([] if expiries else ["--no-expiries"]), "--interrupts", str(interrupts)]


def no_fault_line(expiries, interrupts):
    most = {0: "without interrupts", 1: "with at most 1 interrupt"}.get(interrupts, f"with at most {interrupts} interrupts")
    return f"refused, but no run {most}{'' if expiries else ' and without expiries'} faults"


def traced(asked, text, folder, is_refused, words, found):
    """Yields what is wrong with the traces of the ends that were found."""
    trace = os.path.join(folder, "trace")
    for number, events, end in found:
        says(asked.look, "ends", text, *words, "--trace", number, trace)
        with open(trace) as file:
            count = len(file.read().splitlines())
        if count != int(events):
            yield f"the trace of end {number} has {count} events, not {events}"
        ended = says(asked.sts, "plain" if is_refused else "replay", text, trace)[1][:1]
        with open(text) as file:
            if [by_line(file.read(), it) for it in ended] != [end]:
                yield f"the trace of end {number} comes to {ended}, not {end}"


def sampled(asked, text, words, expected):
    """Yields what is wrong with the ends of random schedules, and with a search that stops early."""
    status, printed = says(asked.look, "ends", text, *words, "--sample", "20", "--seed", "7")
    shares = [found.groups() for found in map(SHARE.fullmatch, printed) if found]
    if status != 5 or not {it[4] for it in shares} <= expected or len({it[4] for it in shares}) != len(shares):
        yield f"random schedules: {printed}"
    cut_off = sum(int(it.split()[0]) for it in printed if it.endswith("cut off"))
    if sum(int(it[2]) for it in shares) + cut_off != 20:
        yield f"not 20 random schedules: {printed}"
    status, printed = says(asked.look, "ends", text, *words, "--most", "2")
    last, found = "".join(printed[-1:]), {it[3] for it in map(LINE.fullmatch, printed) if it}
    is_whole = status == 0 and re.fullmatch("[12] states, all schedules", last) and found == expected  # by a table of calls
    if not is_whole and (status != 5 or last != "stopped at 2 states, not all schedules"):
        yield f"with 2 states: {printed}"


def of_run(source, run):
    """Returns a run of a line of JSON in the words of `look ends`."""
    if run["outcome"] != "fault":
        return f"{run['outcome']} {run['value' if run['outcome'] == 'success' else 'code']}"
    place = place_words(source, run["function"], run["place"])
    line = "at its end" if run["line"] is None else f"line {run['line']}:"
    return f"fault {run['fault']}, task {run['task']} in {place if line in place else line}"


def as_json(asked, text, source, words, is_refused, states, found):
    """Yields what is wrong with the lines of JSON."""
    status, printed = says(asked.look, "ends", text, *words, "--json")
    *ends, last = map(json.loads, printed)
    told = [(str(it["end"]), str(it["after"]), of_run(source, it["run"])) for it in ends]
    right = {"all_schedules": True, "by_calls": None, "no_end": None, "refused": is_refused, "states": states, "version": 1}
    if (status, told, last) != (0, found, right):
        yield f"JSON: status {status}, {printed}"


def wrong_of(asked, text, source, folder, expiries, interrupts):
    """Returns how many comparisons were made, and what is wrong; None if the program has too many states."""
    program, words = stack_code.program(source), options(expiries, interrupts)
    ends, _, are_all = all_ends.ends(program, is_expiring=expiries, interrupts=interrupts, most=MOST_STATES)
    if not are_all:
        return None
    ends = {by_line(source, it) for it in ends}
    is_refused = says(asked.sts, "verify", text)[0] == REFUSED
    status, printed = says(asked.look, "ends", text, *words)
    found, wrong = [it.groups() for it in map(LINE.fullmatch, printed) if it], []
    if status != 0 or len(found) != len(ends) or {it[2] for it in found} != ends:
        wrong.append(f"status {status}, {printed}, and the ends are {sorted(ends)}")
    may_say = is_refused and not any(it.startswith("fault") for it in ends)
    if [it for it in printed if it.startswith("refused")] != ([no_fault_line(expiries, interrupts)] if may_say else []):
        wrong.append(f"whether it is refused without a fault: {printed}")
    states = all_ends.kept(program, expiries, interrupts)
    if printed[-1] != f"{states} states, all schedules":
        wrong.append(f"the last line: {printed[-1]}, and the states are {states}")
    wrong += traced(asked, text, folder, is_refused, words, found)
    wrong += sampled(asked, text, words, ends)
    wrong += as_json(asked, text, source, words, is_refused, states, found)
    return 7 + 2 * len(found), wrong


def compare(asked, name, source):
    """Returns how many comparisons of a program were made, what is wrong, and how many questions were left out."""
    made, wrong, left_out = 0, [], 0
    with tempfile.TemporaryDirectory() as folder:
        text = os.path.join(folder, "text")
        with open(text, "w") as file:
            file.write(source)
        for expiries, interrupts in QUESTIONS:
            compared = wrong_of(asked, text, source, folder, expiries, interrupts)
            if compared is None:
                left_out += 1
                continue
            made += compared[0]
            wrong += [f"{name}, {' '.join(options(expiries, interrupts))}: {it}" for it in compared[1]]
    return made, wrong, left_out


class Raced:
    """Draws programs with several ends: subtasks of a scope that give, fail, look at a flag or wait, and their joiner."""

    def __init__(self, draw):
        self.draw, self.functions, self.count = draw, [], 0

    def kid(self, depth):
        """Adds a function and returns its name."""
        self.count += 1
        name, value = f"kid{self.count}", self.draw.randrange(1, 9)
        ways = ["give", "fail", "cancelled", "interrupted", "slow"] + (["scope"] if depth else [])
        way = self.draw.choice(ways)
        if way == "scope":
            lines = self.scope(depth - 1, 1)
        elif way in ("cancelled", "interrupted"):
            look = "cancelled s0" if way == "cancelled" else "interrupted"
            lines = [look, "jz no", f"push {value}", self.draw.choice(["ret", "fail"]), "no:", f"push {value + 10}", "ret"]
        else:
            slow = ["push 0", "pop"] if way == "slow" else []
            lines = [*slow, f"push {value}", "fail" if way == "fail" else "ret"]
        self.functions.append([f"func {name} 0", *lines, "end"])
        return name

    def scope(self, depth, slot):
        """Returns the lines of a scope with its subtasks, which end the function."""
        joiner = self.draw.choice(["all", "any", "awaitall", "awaitok", f"until {self.draw.choice(WORDS)} {self.draw.randrange(1, 3)}"])
        timed = self.draw.random() < 0.4
        failed = "failed" if joiner in ("all", "any", "awaitok") else "-"
        lines = [f"open s{slot} {joiner}{' timed' if timed else ''}"]
        lines += [f"fork s{slot} {self.kid(depth)} _" for _ in range(self.draw.randrange(1, 4 if depth else 3))]
        lines += [f"join s{slot} {failed} {'late' if timed else '-'} intr"]
        lines += [f"close s{slot}", "ret"] if joiner == "any" else [f"tally s{slot} S", f"close s{slot}", "ret"]
        lines += ["failed:", f"close s{slot}", "fail"] if failed != "-" else []
        lines += ["late:", f"close s{slot}", "push 70", "ret"] if timed else []
        return lines + ["intr:", f"close s{slot}", "push 80", "fail"]

    def text(self):
        main = ["func main 0", *self.scope(1, 0), "end"]
        return "".join(f"{line}\n" for function in [*self.functions, main] for line in function)


def texts(asked):
    """Yields the name and the text of each program."""
    for path in sorted(glob.glob(f"{ROOT}/examples/*.sts")):
        with open(path) as file:
            yield os.path.relpath(path, ROOT), file.read()
    for name, text, _, _ in pages.programs("docs/PATTERNS.md"):
        yield name, text
    for number in range(asked.count):
        yield f"race {asked.seed} {number}", Raced(random.Random(f"race {asked.seed} {number}")).text()
        kind = drawn.misused if number % 2 else drawn.scoped
        yield f"{kind.__name__} {asked.seed} {number}", drawn.drawn(f"ends {asked.seed}", number, kind)[0]


def lines_of(short):
    return "".join(f"{it}\n" for it in short.split(" / "))


def race(count, before=""):
    """Returns a program whose subtasks race under `any`: it ends with the value of any of them, from 1 to `count`."""
    forks = "".join(f"push {value} / fork s0 kid _ / " for value in range(1, count + 1))
    return lines_of(f"func kid 1 / {before}load 0 / ret / end / func main 0 / open s0 any / {forks}join s0 bad - intr / close s0 / ret / "
                    "bad: / close s0 / fail / intr: / push 0 / close s0 / fail / end")


def turns(count, more=""):
    """Returns a program of one task. It takes 4 steps, 13 for each turn of its loop, and those of `more`."""
    turn = "push 0 / pop / " * 6 + "next / "
    return lines_of(f"func main 0 / push {count} / times {count} / {turn}{more}push 7 / ret / end")


# A flag that is read three times, and each time gives a digit.
DIGITS = "func main 0 / interrupted / push 10 / mul / interrupted / add / push 10 / mul / interrupted / add / ret / end"
SAMPLED = {  # the ends of the programs in checks/sampled: all_ends.py finds those of the first two
    "best_price": ["success 9999000", "success 300001", "success 250001", "success 250002"],
    "nested_deadlines": ["failed 504", "success 90", "success 51"],
    # (each round of ten gives 1000, or 1 if its time was up)
    "bulkhead": ["success 3000", "success 2001", "success 1002", "success 3"],
}
# The ends that they have only if an interrupt comes. (A second one adds none; all_ends.py finds those of the first two.)
SAMPLED_INTERRUPTED = {"best_price": ["failed 0"], "nested_deadlines": ["failed 499", "failed 0"], "bulkhead": ["failed 0"]}


def schedules_of_look(look, folder):
    """Yields what random schedules show, and whether it is so."""
    text = os.path.join(folder, "schedules")

    def sample(source, *words):
        with open(text, "w") as file:
            file.write(source)
        status, printed = says(look, "ends", text, "--sample", *words)
        shares = {end: int(times) for _, _, times, _, end in (it.groups() for it in map(SHARE.fullmatch, printed) if it)}
        return status, shares, printed[:-1]

    asked = [("a race of 2 ends", race(2), ["200"], [f"success {it}" for it in (1, 2)])]
    asked += [("a race of 5 ends", race(5), ["500"], [f"success {it}" for it in range(1, 6)])]
    asked += [("a flag", lines_of(DIGITS), ["300", "--interrupts", "1"], [f"success {it}" for it in (0, 1, 10, 100)])]
    for name, ends in SAMPLED.items():
        with open(f"{CHECKS}/sampled/{name}.sts") as file:
            source = file.read()
        asked.append((name, source, ["300"], ends))
        for most in ("1", "2"):
            words = ["300", "--interrupts", most]
            asked.append((f"{name}, interrupts up to {most}", source, words, ends + SAMPLED_INTERRUPTED[name]))
    for name, source, words, ends in asked:
        status, shares, _ = sample(source, *words)
        yield f"{name}: {shares}", (status, set(shares), sum(shares.values())) == (5, set(ends), int(words[0]))
    # Five subtasks of 104 steps each. The first one is forked first, and no one wins nearly always or never.
    shares = sample(race(5, "push 100 / times 100 / next / "), "500")[1]
    yield f"an even race: {shares}", len(shares) == 5 and all(15 <= it <= 300 for it in shares.values())
    listings = {seed: sample(race(5), "100", "--seed", str(seed))[2] for seed in (1, 2, 7, 65_536 + 7)}
    yield "each seed gives a listing of its own", len(set(map(tuple, listings.values()))) == len(listings)
    yield "a seed gives the same listing again", sample(race(5), "100", "--seed", "7")[2] == listings[7]
    for events, source in ((40_005, turns(3_077)), (100_000, turns(7_692))):
        listing = [f"1 after {events} events, in 1 of 1 schedules: success 7"]
        yield f"a schedule of {events} events", sample(source, "1") == (5, {"success 7": 1}, listing)
    for events, source in ((100_001, turns(7_692, "jmp on / on: / ")), (119_994, turns(9_230))):
        yield f"a schedule of {events} events", sample(source, "1") == (5, {}, ["1 schedules were cut off"])


# Two groups open two scopes each, one after the other, and fork a subtask into each.
GROUPS = "func leaf 0 / push 1 / ret / end / func mid 0 / open s1 awaitall / fork s1 leaf{} / join s1 - - intr / close s1 / " \
    "open s2 awaitall / fork s2 leaf{} / join s2 - - late / close s2 / push 1 / ret / intr: / push 0 / close s1 / ret / " \
    "late: / push 0 / close s2 / ret / end / func main 0 / open s0 awaitall / fork s0 mid _ / fork s0 mid _ / " \
    "join s0 - - intr / close s0 / push 7 / ret / intr: / push 0 / close s0 / ret / end"
READERS = "func kid 0 / interrupted / orelse 0 / ret / end / func main 0 / open s0 all / {}join s0 bad - intr / pop / total s0 / " \
    "close s0 / ret / bad: / close s0 / fail / intr: / push 0 / close s0 / fail / end"


def states_of_readers(count):
    """Returns how many states the program READERS with this number of subtasks has, if own steps follow other steps at once.

    A subtask is at `interrupted`, at `ret`, or at its end, and the order of the ends matters. `main` has forked j subtasks, or it is
    behind its `join`, once all have ended in some order: in four states, from `total` to the end.
    """
    found = 1  # before `open`
    for forked in range(count + 1):
        for ended in range(forked + 1):
            found += math.comb(forked, ended) * math.factorial(ended) * 2 ** (forked - ended)
    return found + 4 * math.factorial(count)


def searches_of_look(look, folder):
    """Yields each search of a larger program, and whether it keeps as many states as it has to."""
    text = os.path.join(folder, "searches")
    # (all_ends.py counts the states of the groups)
    for name, source, end, states in (
        ("groups", GROUPS.format(" _", " _"), "success 7", 165),
        ("groups with handles", GROUPS.format(" s3", " s4"), "success 7", 165),
        ("seven readers", READERS.format("fork s0 kid _ / " * 7), "success 0", states_of_readers(7)),
        # (301 own steps: the states after 0, 101, 202 and 301 steps, and the end)
        ("many own steps", "func main 0 / push 7 / " + "push 0 / pop / " * 150 + "ret / end", "success 7", 5),
    ):
        with open(text, "w") as file:
            file.write(lines_of(source))
        status, printed = says(look, "ends", text)
        found = [it[3] for it in map(LINE.fullmatch, printed) if it]
        yield f"{name}: {printed}", (status, found, printed[-1:]) == (0, [end], [f"{states} states, all schedules"])


TOGETHER = ("all", "any", "awaitok", "awaitall", "until failed 3", "until success 3")
# A subtask that succeeds with its argument, or fails with 7 more if its own scope expires.
FLAKY = "func work 1 / load 0 / ret / end / func kid 1 / open s1 all timed / load 0 / fork s1 work _ / join s1 bad late intr / pop / " \
    "total s1 / close s1 / ret / bad: / close s1 / fail / late: / close s1 / load 0 / push 7 / add / fail / intr: / close s1 / load 0 / " \
    "push 8 / add / fail / end / "


# Any of two answers.
RACE = "func one 0 / push 1 / ret / end / func two 0 / push 2 / ret / end / func main 0 / open s0 any / fork s0 one _ / fork s0 two _ / " \
    "join s0 bad - intr / close s0 / ret / bad: / close s0 / fail / intr: / close s0 / push 3 / fail / end"
# Subtasks of 1, 2, 4, 8, 16 and 32. After a timeout any of them may have succeeded.
POWERS = "profile 2 / func kid 1 / load 0 / ret / end / func main 0 / open s1 awaitall timed / push 1 / store 5 / push 6 / times 6 / load 5 / " \
    "fork s1 kid _ / load 5 / push 2 / mul / store 5 / next / join s1 - late intr / total s1 / close s1 / ret / intr: / close s1 / push 80 / " \
    "fail / late: / total s1 / close s1 / ret / end"


def flaky(joiner, count, read="tally s1 S"):
    """Returns a program that forks so many of these subtasks, and ends with what it reads after `join`. `any` gives a value."""
    fails = joiner in ("all", "any", "awaitok")
    gives = "" if joiner in ("any", "awaitok", "awaitall") else "pop / "
    return lines_of(f"{FLAKY}func main 0 / open s1 {joiner} / push {count} / times {count} / load 5 / push 1 / add / store 5 / load 5 / "
                    f"fork s1 kid _ / next / join s1 {'bad' if fails else '-'} - intr / {gives}{'' if joiner == 'any' else f'{read} / '}"
                    f"close s1 / ret / {'bad: / close s1 / fail / ' if fails else ''}intr: / push 0 / close s1 / fail / end")


def ends_of_flaky(joiner, count, read="tally s1 S"):
    """Returns the ends of this program. Sums are of different numbers from 1 to `count`, and `until failed 3` allows each."""
    each, late = range(1, count + 1), [f"failed {it + 7}" for it in range(1, count + 1)]
    least, total = max(0, count - 3), count * (count + 1) // 2
    given = {
        "tally s1 S": {"all": [count], "awaitok": [count], "any": each, "awaitall": range(count + 1), "until success 3": range(4),
                       "until failed 3": range(count + 1), f"until atleast {count}": range(count + 1)},
        "tally s1 F": {"all": [0], "awaitok": [0], "any": each, "awaitall": range(count + 1), "until success 3": range(count + 1),
                       "until failed 3": range(4), f"until atleast {count}": range(count + 1)},
        "tally s1 U": {"all": [0], "awaitok": [0], "any": each, "awaitall": [0], "until success 3": range(least + 1),
                       "until failed 3": range(least + 1), f"until atleast {count}": range(count)},
        "total s1": {"all": [total], "awaitok": [total], "any": each, "awaitall": range(total + 1), "until success 3": range(3 * count - 2),
                     "until failed 3": range(total + 1), f"until atleast {count}": range(total + 1)},
    }[read][joiner]
    return [f"success {it}" for it in given] + (late if joiner in ("all", "any", "awaitok") else [])


# A subtask that succeeds with its argument. It fails with 7 more if its own scope expires, and with 100 if it is interrupted there.
HASTY = "func work 1 / load 0 / ret / end / func kid 1 / open s1 all timed / load 0 / fork s1 work _ / join s1 bad late intr / pop / " \
    "close s1 / load 0 / ret / bad: / close s1 / fail / late: / close s1 / load 0 / push 7 / add / fail / intr: / close s1 / " \
    "push 100 / fail / end / "
# A subtask that fails only if it is interrupted.
ASKS = "func asks 0 / interrupted / jz calm / push 9 / fail / calm: / push 1 / ret / end / "
INTR = "intr: / push 0 / close s0 / fail / end"


def interrupted():
    """Yields programs that are interrupted: their text, how many interrupts may come, how many states are kept, all ends, and
    whether a table shows that there is no other."""
    forks = "push 20 / times 20 / load 5 / push 1 / add / store 5 / load 5 / fork s0 kid _ / next / "
    late, each = [f"failed {it + 7}" for it in range(1, 21)], [f"success {it}" for it in range(1, 21)]
    for joiner, ends in (("all", ["success 20", *late]), ("any", [*each, *late])):
        source = f"{HASTY}func main 0 / open s0 {joiner} timed / {forks}join s0 bad late intr / close s0 / ret / bad: / close s0 / fail / " \
            f"late: / push 300 / close s0 / fail / {INTR}"
        for most in (1, 2):
            yield lines_of(source), most, 2000, [*ends, "failed 100", "failed 0", "failed 300"], True
    source = f"{ASKS}func main 0 / open s0 any / fork s0 asks _ / fork s0 asks _ / join s0 bad - intr / close s0 / ret / bad: / close s0 / " \
        f"fail / {INTR}"
    # Both subtasks fail only by two interrupts. A table has this end for one, too.
    yield lines_of(source), 1, 50, ["success 1", "failed 0"], False
    yield lines_of(source), 2, 50, ["success 1", "failed 0", "failed 9"], True


def by_calls(look, text, words, most):
    """Returns the ends, whether a search by calls found no other, and the status: 0 if a table shows that there is none."""
    status, printed = says(look, "ends", text, *words, "--most", str(most))
    found = [it[3] for it in map(LINE.fullmatch, printed) if it]
    return found, status == 0 or any(it.startswith("a search by calls") for it in printed), status


def calls_of_look(look, folder, count=30, seed="1"):
    """Yields whether a search by calls finds the ends of programs with many subtasks, and those of drawn programs."""
    text = os.path.join(folder, "calls")
    for joiner, read, number in (
        *((it, "tally s1 S", 50) for it in (*TOGETHER, "until atleast 50")),
        *((it, read, 16) for read in ("tally s1 F", "tally s1 U", "total s1") for it in (*TOGETHER, "until atleast 16")),
    ):
        with open(text, "w") as file:
            file.write(flaky(joiner, number, read))
        found, _, status = by_calls(look, text, [], 4000)
        expected = ends_of_flaky(joiner, number, read)
        yield f"{read}, {joiner} of {number}: {found}", (len(found), set(found), status) == (len(expected), set(expected), 0)
    # (the rows of the table have two, two and eight states)
    for name, source, most, expected, wanted in (
        ("race", RACE, 12, ["success 1", "success 2"], 0),
        ("race, one state less", RACE, 11, ["success 1", "success 2"], 5),
        ("sums after a timeout", POWERS, 1000, [f"success {it}" for it in range(2**6)], 0),
    ):
        with open(text, "w") as file:
            file.write(lines_of(source))
        found, _, status = by_calls(look, text, [], most)
        yield f"{name}: {found}", (sorted(found), status) == (sorted(expected), wanted)
    for source, interrupts, most, expected, is_whole in interrupted():
        with open(text, "w") as file:
            file.write(source)
        found, is_closed, status = by_calls(look, text, options(True, interrupts), most)
        right = (len(expected), set(expected), True, 0 if is_whole else 5)
        yield f"with {interrupts} interrupts: {found}, {source}", (len(found), set(found), is_closed, status) == right
    compared = 0
    for number in range(count):
        for kind in (seeing.stress, seeing.within, seeing.failing):
            with open(text, "w") as file:
                file.write(kind(random.Random(f"{seed} {kind.__name__} {number}")))
            for expiries, interrupts in (*QUESTIONS, (True, 2)):
                words = options(expiries, interrupts)
                status, printed = says(look, "ends", text, *words, "--most", str(MOST_STATES))
                if status != 0 or not printed[-1].endswith(" states, all schedules") or any(it.startswith("refused") for it in printed):
                    continue  # (it is refused, or has too many states)
                expected = [it[3] for it in map(LINE.fullmatch, printed) if it]
                found, is_closed, _ = by_calls(look, text, words, int(printed[-1].split()[0]) - 1)
                if any(it.startswith("fault") for it in expected) or not is_closed:
                    yield f"{kind.__name__} {number}, {words}: {found}", set(found) <= set(expected)
                    continue
                compared += 1
                yield f"{kind.__name__} {number}, {words}: {found}", sorted(found) == sorted(expected)
    yield f"{compared} programs were compared", compared >= count


def going_back(count, kid="close s1 / load 0 / push 8 / add / fail", late="push 300 / close s1 / fail", stop="push 0 / close s1 / fail"):
    """Returns a program that is refused, since its loop is a jump back. It forks so many subtasks of FLAKY, and its own scope may
    expire, too. The others are the ends of a subtask whose `join` is interrupted, and those of `main` after each such `join`."""
    assert "close s1 / load 0 / push 8 / add / fail" in FLAKY
    kids = FLAKY.replace("close s1 / load 0 / push 8 / add / fail", kid)
    return lines_of(f"{kids}func main 0 / open s1 all timed / more: / load 5 / push 1 / add / store 5 / load 5 / fork s1 kid _ / load 5 / "
                    f"push {count} / sub / jz go / jmp more / go: / join s1 bad late intr / pop / total s1 / close s1 / ret / bad: / close s1 / "
                    f"fail / late: / {late} / intr: / {stop} / end")


def ends_going_back(count, interrupts=0):
    """Returns the ends of this program: the sum, the failure of one whose time was up, or which was interrupted, or those of `main`."""
    failed = {it + code for it in range(1, count + 1) for code in (7, 8)[: 1 + interrupts]} | {300} | ({0} if interrupts else set())
    return {f"success {count * (count + 1) // 2}", *(f"failed {it}" for it in failed)}


NO_FAULT = no_fault_line(True, 0)
WRONG = {  # refused programs with a fault that only an interrupt, a cancel or an expiry leads to: a `ret` finds no operand
    "an interrupt": going_back(50, stop="close s1 / ret"),
    "a cancel": going_back(50, kid="close s1 / ret"),
    "an expiry": going_back(50, late="close s1 / ret"),
}
# A subtask that goes on without an end, also once it is cancelled.
SPINS = "func give 1 / load 0 / ret / end / func spin 0 / more: / interrupted / pop / jmp more / end / func main 0 / open s0 any / " \
    "fork s0 spin _ / push 5 / fork s0 give _ / push 6 / fork s0 give _ / join s0 bad - intr / close s0 / ret / bad: / close s0 / fail / " \
    "intr: / push 3 / close s0 / fail / end"


def refused_of_look(look, folder, count=30, seed="1"):
    """Yields whether a table shows that no run of a refused program faults, and that there is no other end."""
    text = os.path.join(folder, "refused")

    def ends(source, *words):
        with open(text, "w") as file:
            file.write(source)
        status, printed = says(look, "ends", text, *words)
        return status, {it[3] for it in map(LINE.fullmatch, printed) if it}, printed

    for number, interrupts, most in ((50, 0, 2000), (50, 1, 4000), (200, 0, 8000)):
        status, found, printed = ends(going_back(number), *options(True, interrupts), "--most", str(most))
        right = (0, ends_going_back(number, interrupts), True)
        yield f"going back, {number}: {printed}", (status, found, no_fault_line(True, interrupts) in printed) == right
    for what, source in WRONG.items():
        for words in ([], ["--no-expiries"]):
            status, found, printed = ends(source, "--most", "2000", *words)
            is_told = any(it.startswith("refused") or "all schedules" in it and "not" not in it for it in printed)
            ends_there = {it for it in found if not it.startswith("fault")}
            yield f"a fault by {what}: {printed}", (status, is_told) == (5, False) and ends_there <= ends_going_back(50)
    status, found, printed = ends(lines_of(SPINS))
    yield f"a subtask without an end: {printed}", (status, found, NO_FAULT in printed) == (0, set(), True)
    compared = 0
    for number in range(4 * count):
        draw = random.Random(f"{seed} spoilt {number}")
        source, (expiries, interrupts) = seeing.spoilt(draw), draw.choice((*QUESTIONS, (True, 2)))
        _, found, printed = ends(source, *options(expiries, interrupts), "--seconds", "0")
        if no_fault_line(expiries, interrupts) not in printed:
            continue
        expected, _, are_all = all_ends.ends(stack_code.program(source), is_expiring=expiries, interrupts=interrupts, most=MOST_STATES)
        if are_all:
            compared += 1
            yield f"spoilt {number}, {options(expiries, interrupts)}: {printed}", found == set(expected)
    yield f"{compared} refused programs were compared", compared >= count // 5


PARTS = {it.__name__: it for it in (schedules_of_look, searches_of_look, calls_of_look, refused_of_look)}


def rows():
    """Yields each question of ends.rows: its line, the text, the options and the ends that were worked out by hand."""
    for row in notation.table(f"{CHECKS}/ends.rows"):
        most, *more = row.asked.split()
        ends = [] if row.answer == "none" else row.answer.split(" | ")
        yield row.number, notation.whole(row.text).decode(), options(more == ["timed"], int(most)), ends


def wrong_rows(asked, look):
    """Returns how many questions ends.rows has, and what is wrong with what this `look` answers."""
    if not os.path.exists(look):
        return 1, ["there is no such program: `rt ci` builds it"]
    count, wrong = 0, []
    with tempfile.TemporaryDirectory() as folder:
        text = os.path.join(folder, "text")
        for number, source, words, ends in rows():
            with open(text, "w") as file:
                file.write(source)
            status, printed = says(look, "ends", text, *words)
            found = [it[3] for it in map(LINE.fullmatch, printed) if it]
            expected = [by_line(source, it) for it in ends]
            count += 1
            if status != 0 or sorted(found) != sorted(expected):
                wrong.append(f"ends.rows, line {number}: status {status}, {printed}, and the ends are {expected}")
    return count, wrong


def by_compilers(look):
    """Returns the program, and the same program as Rattle's own compiler built it. Only `rt ci` builds the second one, so it may
    be missing beside a program that isn't that of the gate."""
    other = f"{look}.by-rattle"
    return [look, other] if look == os.path.realpath(programs.proved("look")) or os.path.exists(other) else [look]


def tried_parts(asked, folder, names, tally):
    for part in names:
        more = (asked.count, asked.seed) if part in ("calls_of_look", "refused_of_look") else ()
        for name, is_so in PARTS[part](asked.look, folder, *more):
            tally.holds(f"{part}: {name}", is_so)


def tally_of(tally, made, wrong):
    """Counts as many comparisons, of which these are wrong."""
    tally.passed += made - len(wrong)
    for line in wrong:
        tally.holds(line, False)


def main():
    reads = argparse.ArgumentParser(description="Compares `look ends` with a search in Python.")
    reads.add_argument("parts", nargs="*", metavar="PART", help=f"tries only {' or '.join(PARTS)}")
    reads.add_argument("--count", type=int, default=30, help="so many times two drawn programs (30)")
    reads.add_argument("--seed", default="1")
    count = next((k for k, it in enumerate(sys.argv[1:3]) if it.startswith("-") and it != programs.UNPROVED), 2)
    asked = reads.parse_args(sys.argv[1 + count :])
    (asked.look, asked.sts), rest = programs.taken(sys.argv[1 : 1 + count], "look", "sts")
    asked.parts = [*rest, *asked.parts]
    tally, left_out = Tally(), 0
    if asked.parts:
        with tempfile.TemporaryDirectory() as folder:
            tried_parts(asked, folder, parts(asked.parts, PARTS), tally)
        return tally.end()
    with concurrent.futures.ProcessPoolExecutor() as pool, tempfile.TemporaryDirectory() as folder:
        work = [pool.submit(compare, asked, name, source) for name, source in texts(asked)]
        tried_parts(asked, folder, PARTS, tally)
        for look in by_compilers(asked.look):
            tally_of(tally, *wrong_rows(asked, look))
        for it in work:
            made, wrong, without = it.result()
            left_out += without
            tally_of(tally, made, wrong)
    print(f"{left_out} questions had more than {MOST_STATES} states, and were left out")
    return tally.end()
