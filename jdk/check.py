#!/usr/bin/env python3
"""Compares the rules of docs/BEHAVIOUR.md with a real JDK 25.  usage: jdk/check.py [options]

    jdk/check.py             plays cases, runs programs freely, runs the Java examples; reports counts
    jdk/check.py --planted   says for each of the wrong models whether the cases notice it
    jdk/check.py --write     does what the first does, and writes its figures into jdk/README.md

A case is a text and a trace. The player (Player.java) plays it over the scopes of the JDK; a machine in Python
(checks/models/plain_machine.py) goes through the same events; the states are compared after each. `look view --each`, `sts plain`
and `sts replay` are asked for a share of the cases, and have to print what that machine does. If the player differs, the
machine of known.py, which has the known differences of JDK 25, has to agree with it to the last event. Otherwise it fails.

Status 0: no failure; 1: failures; 2: usage; 3: no JDK 25 was found, so nothing was compared.
"""
import argparse
import collections
import datetime
import os
import resource
import sys
import time
from concurrent.futures import ProcessPoolExecutor

HERE = os.path.dirname(os.path.realpath(__file__))
ROOT = os.path.dirname(HERE)
sys.path[:0] = [HERE, ROOT]
import cases  # noqa: E402
import examples  # noqa: E402
import free  # noqa: E402
import known  # noqa: E402
import page  # noqa: E402
import planted  # noqa: E402
import programs  # noqa: E402
from checks.models import stack_code  # noqa: E402
from player import MODES, Jdk, Player, find_jdk, first_difference  # noqa: E402

PART = 400  # cases that one JVM plays
REAL_PART = 50  # of those with real timeouts
TIMEOUT = 40  # milliseconds, of a real timeout
NO_JDK = 3


class Tally:
    """The results of cases: how many agreed, by kind; differences and failures, each with the smallest case; the rules that were met."""

    def __init__(self):
        self.kinds, self.agreed, self.modes = (collections.Counter() for _ in range(3))
        self.known, self.rules, self.failures = (collections.Counter() for _ in range(3))
        self.events = self.dropped = 0
        self.smallest = {}

    def add(self, other):
        for name in ("kinds", "agreed", "modes", "known", "rules", "failures"):
            getattr(self, name).update(getattr(other, name))
        self.events += other.events
        self.dropped += other.dropped
        for name, case in other.smallest.items():
            self.keep(name, *case)

    def keep(self, name, case, at, mode):
        size = len(case.events) + case.text.count("\n")
        kept = self.smallest.get(name)
        if kept is None or size < len(kept[0].events) + kept[0].text.count("\n"):
            self.smallest[name] = (case, at, mode)


def judge(tally, case, printed, mode):
    """Adds a case to the results of others. With real timeouts a case is dropped if a timeout may be up unasked."""
    if "unasked" in printed:
        tally.dropped += 1
        return
    program = stack_code.program(case.text)
    witness, jdk = known.Witness(program), known.JdkMachine(program)
    at = first_difference(witness, case, printed)
    tally.kinds[case.kind] += 1
    tally.modes[mode] += 1
    tally.events += sum(line.startswith("after ") for line in printed)
    if at is None:
        tally.agreed[case.kind] += 1
        tally.rules.update(witness.came)
    elif first_difference(jdk, case, printed) is None and jdk.met:
        for name in jdk.met:
            tally.known[name] += 1
            tally.keep(name, case, at, mode)
    else:
        tally.failures[case.kind] += 1
        tally.keep("failure", case, at, mode)


def played(player, mode, part, *properties):
    """Plays cases in one JVM, and returns what came of them."""
    tally = Tally()
    shown = player.printed(part, f"join={mode[0]}", f"threads={mode[1]}", *properties)
    for case, printed in zip(part, shown, strict=True):
        judge(tally, case, printed, mode)
    return tally


def parts(given):
    """Returns the cases in parts with their modes: rows, examples and patterns in each mode, the others in one each."""
    by_mode = {mode: [] for mode in MODES}
    for number, case in enumerate(given):
        is_each = not case.kind.startswith(("drawn", "journal"))
        late = [mode for mode in MODES if mode[0] == "late"]
        modes = MODES if is_each else [late[number % 2]] if case.kind == "journals" else [MODES[number % len(MODES)]]
        for mode in modes:
            by_mode[mode].append(case)
    return [(mode, of[at:at + PART]) for mode, of in by_mode.items() for at in range(0, len(of), PART)]


def in_real_time(pool, player, asked, found):
    """Plays cases that have an expiry with real timeouts, each in one mode, and returns what came of them."""
    timed = [it for it in found if "timed" in it.text and any(event.startswith("expire ") for event in it.events)]
    by_hand = [it for it in timed if not it.kind.startswith("drawn")]
    drawn = [it for it in timed if it.kind.startswith("drawn")]
    chosen, tally = (by_hand + drawn[::max(1, len(drawn) // max(1, asked.real - len(by_hand)))])[:asked.real], Tally()
    given = [(player, MODES[at % len(MODES)], chosen[at::asked.real // REAL_PART + 1]) for at in range(asked.real // REAL_PART + 1)]
    given = [it for it in given if it[2]]
    for part in pool.map(played, *zip(*given), [f"timeout={TIMEOUT}"] * len(given)) if given else ():
        tally.add(part)
    return tally


def said(case, at, mode):
    """Returns the lines that show a case: its name, where it differs, its text and its events up to there."""
    lines = [f"{case.kind}, {case.name}, {mode[0]} join, {mode[1]} threads: differs behind event {at}"]
    return "\n".join([*lines, case.text.rstrip("\n"), "%", *case.events[:at], ""])


def report(tally, folder):
    """Prints what came of the cases."""
    for kind, count in tally.kinds.items():
        print(f"{kind}: {count} cases, {tally.agreed[kind]} agree, {count - tally.agreed[kind] - tally.failures[kind]} with known differences only")
    print("by mode: " + ", ".join(f"{join} join on {threads} threads {count}" for (join, threads), count in sorted(tally.modes.items())))
    for name in known.DIFFERENCES:
        print(f"known: {name}: {tally.known[name]} cases")
    keep(tally, folder)
    print(f"the smallest case of each is in {folder}")


def report_real(real, folder):
    """Prints what came of the cases with real timeouts."""
    count, agreed, failed = (sum(it.values()) for it in (real.kinds, real.agreed, real.failures))
    print(f"with real timeouts of {TIMEOUT} ms: {count} cases, {agreed} agree, {count - agreed - failed} with known differences only, "
          f"{failed} fail; {real.dropped} were dropped, since a timer may have fired unasked")
    keep(real, folder, "real_")


def keep(tally, folder, prefix=""):
    """Writes the smallest case of each difference into the folder."""
    os.makedirs(folder, exist_ok=True)
    for name, case in tally.smallest.items():
        path = os.path.join(folder, f"{prefix}{name.replace(' ', '_').replace('(', '').replace(')', '')}.case")
        with open(path, "w") as file:
            file.write(said(*case))


def compare(pool, player, asked):
    """Plays all cases; returns what came of them, of those with real timeouts, and what is wrong of `look` and `sts`."""
    rows, long = cases.of_rows()
    found = rows + cases.of_files() + cases.of_journals(asked.sts, asked.seed, asked.journals)
    for part in pool.map(cases.of_draws_from, *zip(*cases.draw_parts(asked.seed, asked.cases))):
        found += part
    tally = Tally()
    for part in pool.map(played, *zip(*((player, *it) for it in parts(found)))):
        tally.add(part)
    print(f"{long} rows with a trace of more than {cases.MOST_BYTES} bytes were left out")
    return tally, in_real_time(pool, player, asked, found), programs.differences(pool, asked, found)


def reader():
    reads = argparse.ArgumentParser(description="Compares the rules of docs/BEHAVIOUR.md with a real JDK 25.")
    reads.add_argument("--sts", default=f"{ROOT}/crates/sts/out/sts", help="the built program sts")
    reads.add_argument("--look", default=f"{ROOT}/crates/look/out/look", help="the built program look")
    reads.add_argument("--scopes", default="JdkScopes", help="the class of the runtime that is played (JdkScopes)")
    reads.add_argument("--cases", type=int, default=7200, help="how many cases are drawn (7200)")
    reads.add_argument("--journals", type=int, default=200, help="how many runs by workers are played (200)")
    reads.add_argument("--seed", type=int, default=1, help="what the cases are drawn from (1)")
    reads.add_argument("--share", type=int, default=10, help="look and sts are asked for one of this number of rows and drawn cases (10)")
    reads.add_argument("--free", type=int, default=400, help="how often each program is run freely (400)")
    reads.add_argument("--real", type=int, default=600, help="how many cases with an expiry are played with real timeouts (600)")
    reads.add_argument("--jobs", type=int, default=os.cpu_count(), help="how many parts are played at once (one a processor)")
    reads.add_argument("--smallest", default="jdk_smallest", help="the folder for the smallest case of each difference")
    reads.add_argument("--planted", action="store_true", help="says of each wrong model whether it is noticed")
    reads.add_argument("--write", action="store_true", help="writes the figures into jdk/README.md")
    return reads


def check(pool, player, asked, began):
    """Compares, runs freely and runs the Java examples; returns how many failures there are."""
    tally, real, wrong = compare(pool, player, asked)
    report(tally, asked.smallest)
    report_real(real, asked.smallest)
    freely = free.run(pool, player, asked)
    ran = examples.run(pool, player.jdk)
    idle = ["no timer fired in real time"] if asked.real and not real.rules["join timeout"] else []
    failures = len(idle) + sum(tally.failures.values()) + sum(real.failures.values()) + len(wrong.failures) + len(freely.failures) + len(ran.failures)
    for line in [*idle, *wrong.failures, *freely.failures, *ran.failures]:
        print(f"FAILURE: {line}")
    seconds = round(time.time() - began)
    print(f"{wrong.asked} answers of look and sts, {len(wrong.failures)} wrong")
    print(f"{freely.runs} free runs of {freely.programs} programs: {freely.by_rules} came to an end that look ends lists, "
          f"{freely.differing} to one by a known difference, {freely.added} to one that the JDK's own steps add, {len(freely.failures)} programs to another")
    print(f"{ran.count} Java programs ran, {len(ran.failures)} failed; by a known difference alone: {', '.join(sorted(ran.otherwise))}")
    print(f"{player.jdk.build} ({player.jdk.vendor}), {datetime.date.today()}, {seconds} s")
    print(f"{sum(tally.kinds.values())} cases, {tally.events} events, {failures} failures")
    if asked.write and not failures:
        page.write(player.jdk, tally, real, wrong, freely, ran, seconds)
    return failures


def main():
    began, asked = time.time(), reader().parse_args()
    home = find_jdk()
    if home is None:
        print("NO JDK 25 WAS FOUND: NOTHING WAS COMPARED. Set JAVA_HOME to the home of one.", file=sys.stderr)
        return NO_JDK
    missing = [it for it in (asked.sts, asked.look) if not os.access(it, os.X_OK)]
    if missing and not asked.planted:
        reader().error(f"no program at {' or '.join(missing)}: ./sts and ./look build them; --sts and --look name others")
    player = Player(Jdk(home), asked.scopes)
    try:
        with ProcessPoolExecutor(asked.jobs) as pool:
            failures = planted.run(pool, player, asked) if asked.planted else check(pool, player, asked, began)
    finally:
        player.close()
    used = resource.getrusage(resource.RUSAGE_CHILDREN)
    print(f"{round(used.ru_utime + used.ru_stime)} s of processor time", file=sys.stderr)
    return min(1, failures)


if __name__ == "__main__":
    sys.exit(main())
