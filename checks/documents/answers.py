"""The form of the answers in proofs. An answer has at most 12 lines of at most 160 columns, or a comment above it says why not.

Answers that were there before this rule may be longer; checks/answers.most says how many. `write` lowers that number."""
import os
import re
import subprocess

from checks.documents.pages import fail, read
from checks.programs import ROOT

LINES, COLUMNS = 12, 160
MOST = "checks/answers.most"
HEAD = re.compile(r"^pub (\S+) : goal\.\S")  # the first line of an answer: its name and its goal


def paths():
    """Returns the files of answers."""
    listed = subprocess.check_output(["git", "ls-files", "-co", "--exclude-standard", "crates"], cwd=ROOT, text=True)
    return [it for it in listed.split() if it.endswith("/Answers.antt") and os.path.exists(f"{ROOT}/{it}")]


def answers(text):
    """Yields the name of each answer of a file, the line above its first one, and the lines below this."""
    lines = text.split("\n")
    tops = [at for at, it in enumerate(lines) if it and not it[0].isspace()]
    for at in tops:
        head = HEAD.match(lines[at])
        if not head:
            continue
        # (the answer ends where the next declaration or its comment begins)
        end = next((it for it in tops if it > at and not lines[it].startswith(f"{head[1]} ")), len(lines))
        yield head[1], lines[at - 1] if at else "", [it for it in lines[at + 1 : end] if it.strip()]


def is_short(above, body):
    """Returns whether an answer is short, or has a comment above it."""
    return above.startswith("-- ") or len(body) <= LINES and max(map(len, body), default=0) <= COLUMNS


def check(is_writing):
    found = sum(not is_short(above, body) for path in paths() for _, above, body in answers(read(path)))
    most = int(read(MOST))
    if is_writing and found < most:
        with open(f"{ROOT}/{MOST}", "w") as file:
            file.write(f"{found}\n")
    elif found > most:
        fail(f"{found} answers have over {LINES} lines, or a line of over {COLUMNS} columns, and no comment: {MOST} allows {most}")
