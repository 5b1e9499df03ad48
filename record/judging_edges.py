"""Tests that record/look notices a recording that isn't as the rules say: a stored one, of which some lines are changed."""
import os
import subprocess
import tempfile

HERE = os.path.dirname(os.path.realpath(__file__))
STORED = f"{HERE}/recordings/deadline/deadline_9-1.rec"
EXPIRY = '{"expire": 0}\n'
TOLD = '"deadline.java:10|main|part", "started": true, "told": true'
NOT_TOLD = TOLD.replace('"told": true', '"told": false')
# The trace has five steps of task 0 and two of task 1. Event 8 is the expiry, and a second one doesn't count.
AGAIN = "event 9 doesn't count: scope 0 can't expire now"
# If the joiner isn't told of the one success, the root counts none: it ends with another number.
UNHEARD = ["task 0 (deadline.java:9): in Java failed, by the rules failed 30001",
           "task 1 (deadline.java:10): in Java unheard success, by the rules success 20"]
DIFFERS = "No. docs/JDK.md has the known differences."
# What is changed in the recording, and what record/look answers to its first question.
CASES = [
    ([], ["Yes: 3 tasks end as recorded, and each of 20 events counts."]),
    ([(EXPIRY, EXPIRY * 2)], [DIFFERS, AGAIN]),
    ([(TOLD, NOT_TOLD)], [DIFFERS, *UNHEARD]),
    ([(EXPIRY, EXPIRY * 2), (TOLD, NOT_TOLD)], [DIFFERS, AGAIN, *UNHEARD]),
]


def answered(programs, changes):
    """Returns the status of record/look for the changed recording, and what it prints below its first question."""
    with open(STORED) as file:
        text = file.read()
    for old, new in changes:
        if text.count(old) != 1:
            raise ValueError(f"{STORED} doesn't have once: {old}")
        text = text.replace(old, new)
    with tempfile.TemporaryDirectory() as room:
        with open(f"{room}/deadline_9-1.rec", "w") as file:
            file.write(text)
        said = subprocess.run([f"{HERE}/look", *programs, "deadline_9-1.rec"], cwd=room, capture_output=True, text=True)
    below = said.stdout.split("Did the JDK do what the rules say?\n")[-1].split("The story\n")[0]
    return said.returncode, [it.strip() for it in below.splitlines()]


def test(programs):
    failures = 0
    for changes, lines in CASES:
        expected, answer = (int(bool(changes)), lines), answered(programs, changes)
        if answer != expected:
            failures += 1
            print(f"  FAILS: {changes}: {answer}, not {expected}")
    print(f"changed recordings: {len(CASES)} demands, {failures} fail")
    return failures
