"""Asks `look` and `sts` for what the machine in Python says of cases."""
import collections
import os
import subprocess
import tempfile

from checks.models import plain_machine
from checks.models import stack_code
from checks.tests.places import without_lines
from player import parts


WHOLE = ("examples", "patterns", "journals")


class Wrong:
    def __init__(self):
        self.asked, self.failures = 0, []


def each(text, events):
    """Returns what `look view --each` has to print, by the machine in Python."""
    machine = plain_machine.Machine(stack_code.program(text))
    lines = machine.view()
    for number, event in enumerate(events, 1):
        idle = "" if machine.event(event) else " idle"
        lines += [f"after {number} {event}{idle}", *machine.view()]
    return lines


def says(*words):
    return subprocess.run(words, stdin=subprocess.DEVNULL, capture_output=True, text=True).stdout.splitlines()


def ask(look, sts, case):
    """Returns how many answers were asked for, and what is wrong with them."""
    expected, wrong = each(case.text, case.events), []
    with tempfile.TemporaryDirectory() as folder:
        text, trace = (os.path.join(folder, it) for it in ("text", "trace"))
        for path, content in ((text, case.text), (trace, "".join(f"{it}\n" for it in case.events))):
            with open(path, "w") as file:
                file.write(content)
        if list(map(without_lines, says(look, "view", text, trace, "--each"))) != expected:
            wrong.append(f"look view --each of {case.name} isn't what the machine in Python says")
        mode = "replay" if case.kind == "journals" else "plain"
        if says(sts, mode, text, trace) != parts(expected)[-1][1][:2]:
            wrong.append(f"sts {mode} of {case.name} isn't what the machine in Python says")
    return 2, wrong


def differences(pool, asked, found):
    """Asks for every example, pattern and journal, and for a share of the rows and of the drawn cases."""
    counts, chosen = collections.Counter(), []
    for case in found:
        counts[case.kind] += 1
        if case.kind in WHOLE or counts[case.kind] % asked.share == 0:
            chosen.append(case)
    result = Wrong()
    names = [(asked.look, asked.sts, case) for case in chosen]
    for count, wrong in pool.map(ask, *zip(*names), chunksize=8):
        result.asked += count
        result.failures += wrong
    return result
