#!/usr/bin/env python3
"""Records free programs many times, and compares each recording with the rules.  usage: record/check.py [options] [PROGRAM ..]

    record/check.py               each program of record/services, jdk/examples and jdk/differences, 200 times
    record/check.py --times 20    fewer runs
    record/check.py Orders sum    these programs

It builds the recorder, compiles the programs, and runs them with random delays before each call. Each recording becomes a text and
a trace. A machine in Python (checks/models/plain_machine.py) runs them: all tasks have to end as in Java, and each event has to count.
`sts replay` (or `sts plain`, if the text is refused) has to print the same end. A recording that differs has to name a known
difference of docs/JDK.md, and this may come only in the programs that KNOWN lists.

Status 0: no failure; 1: failures; 3: no JDK 25 was found, so nothing was compared.
"""
import argparse
import collections
import glob
import os
import subprocess
import sys
import tempfile
from concurrent.futures import ProcessPoolExecutor

HERE = os.path.dirname(os.path.realpath(__file__))
ROOT = os.path.dirname(HERE)
sys.path[:0] = [HERE, ROOT, os.path.join(ROOT, "jdk")]
import jdk25  # noqa: E402
import judged  # noqa: E402
import known  # noqa: E402
from checks.models import plain_machine  # noqa: E402
import recording  # noqa: E402
import runs  # noqa: E402
import texts  # noqa: E402

AFTER_RESULT = "an interrupt after a result"  # which no machine of known.py has, since no played trace can show it
# The known differences of docs/JDK.md that recordings of a program may show.
KNOWN = {
    "join_again": {known.SECOND_JOIN}, "second_join": {known.SECOND_JOIN},
    "Clash": {AFTER_RESULT}, "Edge": {AFTER_RESULT}, "Outside": {AFTER_RESULT}, "interrupt_behind_a_result": {AFTER_RESULT},
    "first_binding": {known.FIRST_BINDING},
    "other_bindings_in_a_cancelled_scope": {known.OTHER_BINDING},
    "close_without_a_join": {known.CLOSE_ORDER},
    "end_with_a_scope_open": {known.OPEN_END},
}


def by_machine(machine, it, made, events):
    """Runs the events on a machine of the text. Returns what differs from the recording."""
    wrong = []
    for number, event in enumerate(events, 1):
        if not machine.event(event) and not wrong:
            wrong.append(f"event {number} doesn't count: {event}")
    fault, end = judged.fault_of(it), machine.root_end()
    if fault:
        return [] if end.startswith(f"fault {fault[0]} task {fault[1]} ") else [f"in Java a fault {fault[0]} of task {fault[1]}, by the rules {end}"]
    return judged.wrong_ends(it, made, {n: machine.task_words(task) for n, task in enumerate(machine.tasks)}) + wrong


def differences(it, made, program, events):
    """Returns the known differences of JDK 25 that explain a recording which the rules don't: by its notes, or by a machine that has them."""
    machine = known.JdkMachine(program)
    wrong = by_machine(machine, it, made, events)
    return judged.noted(it) | (machine.met if not wrong or machine.is_beyond else set())


def by_sts(sts, text, trace):
    """Returns what `sts replay` prints, or `sts plain` for a text that is refused, and whether it is."""
    with tempfile.TemporaryDirectory() as folder:
        paths = [os.path.join(folder, it) for it in ("text", "trace")]
        for path, content in zip(paths, (text, trace)):
            with open(path, "w") as file:
                file.write(content)
        said = subprocess.run([sts, "replay", *paths], capture_output=True, text=True)
        if said.returncode != 4:
            return said.stdout, False
        return subprocess.run([sts, "plain", *paths], capture_output=True, text=True).stdout, True


def judge(given):
    """Returns the end of a recording, what is wrong, the known differences that explain it, and whether its text is refused."""
    path, sts = given
    it = recording.read(path)
    text, trace, made = texts.replayed(it)
    program, events = plain_machine.stack_code.program(text), trace.splitlines()
    machine = plain_machine.Machine(program)
    wrong = by_machine(machine, it, made, events)
    met = differences(it, made, program, events) if wrong else set()
    refused, end = False, machine.root_end()
    if sts:
        said, refused = by_sts(sts, text, trace)
        if said != f"{end}\nsteps {machine.steps}\n":
            wrong.append(f"sts prints {said!r}, the machine in Python {end}")
            met = set()
    return path, end, wrong, met, refused


def report(name, folder, results, limit=3):
    """Prints what came of a program. Returns how many recordings failed."""
    ends, shown, failures, refused = collections.Counter(), collections.Counter(), [], 0
    counts = runs.counts(folder)
    for path, end, wrong, met, is_refused in results:
        count = counts.get(os.path.basename(path)[:-len(".rec")], 1)
        ends[end.split(" ")[0]] += count
        refused += is_refused
        if wrong and met & KNOWN.get(name, set()):
            shown[" and ".join(sorted(met))] += count
        elif wrong:
            failures.append((path, wrong))
    total = sum(ends.values())
    print(f"{name}: {total} runs, {len(results)} different; {total - sum(shown.values()) - len(failures)} agree"
          + "".join(f", {n} show {it}" for it, n in shown.items()) + (f"; {refused} texts are refused" if refused else "")
          + (f"; {len(failures)} FAIL" if failures else ""), flush=True)
    for path, wrong in failures[:limit]:
        print(f"  {path}: {'; '.join(wrong[:3])}", flush=True)
    return len(failures)


def main():
    reads = argparse.ArgumentParser(description="Records free programs many times, and compares each recording with the rules.")
    reads.add_argument("programs", nargs="*", help="the programs (all)")
    reads.add_argument("--times", type=int, default=200, help="how often each program runs (200)")
    reads.add_argument("--delay", type=int, default=300, help="microseconds that a call waits at most (300)")
    reads.add_argument("--sts", help="the built program sts (crates/sts/out/sts, if it is there)")
    reads.add_argument("--keep", help="a folder for the recordings")
    reads.add_argument("--jobs", type=int, default=2, help="processes that judge (2)")
    asked = reads.parse_args()
    home = jdk25.find_jdk()
    if home is None:
        print("no JDK 25 was found, so nothing was recorded")
        return jdk25.NO_JDK
    sts = asked.sts or next((it for it in [f"{ROOT}/crates/sts/out/sts"] if os.path.exists(it)), None)
    if sts is None:
        print("sts isn't built, so only the machine in Python judges")
    failures = 0
    with tempfile.TemporaryDirectory() as room, ProcessPoolExecutor(asked.jobs) as pool:
        ran = runs.Runs(home, asked.keep or room)
        for name in asked.programs or ran.names():
            folder = ran.record(name, min(asked.times, runs.SLOW.get(name, asked.times)), "most=1000000", f"delay={asked.delay}")
            paths = sorted(glob.glob(f"{folder}/*.rec"))
            failures += report(name, folder, list(pool.map(judge, [(it, sts) for it in paths], chunksize=4)))
    print(f"{failures} recordings fail")
    return 1 if failures else 0


if __name__ == "__main__":
    sys.exit(main())
