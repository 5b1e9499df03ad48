"""Makes edits of a crate in one copy, and has the prover check the functions that were edited. edits.py and named.py use it.

An edit is a file with a first line that says its mistake, and then lines `file:`, `old:` and `new:`. Each old text is in its file
once, in a function. No two edits of a copy are of one function, and all functions that weren't edited are cut out of it.

An edit is refused if its function isn't proved, and the prover says why, in more than a name that the edit took away. An edit of
which nothing was said is tried once more, alone: a function that it calls may have had an edit, too. What was checked is kept from
one copy of a crate to the next.
"""
import collections
import os
import re
import shutil
import subprocess
import tempfile

from checks import kit
from checks.mutants.functions import cut, function_at

PARTS = ("src", "specs", "proofs")
TOLD = re.compile(r"^(?P<note>note: )?(?:\./)?(?P<path>(?:src|proofs)/\S+?):(?P<line>\d+):\d+: ?(?P<said>.*)$")
# What the prover says of a proof file that names what an edit took away.
NAMES = re.compile(r"has no field|is not in scope|has no `|was not admitted")
NO_NAME = re.compile(r"rattle: error: .*`([\w:]+)`: help: write the name")
ENDED = re.compile(r"only=\d+ proved=\d+")
ERROR = re.compile(r"\berror\[[\w-]+\]")
# What the prover's line of a function says of it. A function isn't proved either if it, or one beside it, rests on what was cut out.
# Then the prover says no reason at a place of it.
OPEN = r"not proved|no proof"
CLOSED = r"proved|not proved"

# An edit: its name, its changes (a file, an old text and a new one), and the names of the functions with these texts.
Edit = collections.namedtuple("Edit", "name changes functions")


class Unfit(Exception):
    """An edit that can't be tried in this way."""


def link_or_copy(one, other):
    """Gives a file of a library a second place."""
    try:
        os.link(one, other)
    except OSError:
        shutil.copy2(one, other)


def source(crate, file):
    """Returns the text of a file of a crate."""
    with open(f"{crate.folder}/{file}", encoding="utf-8") as text:
        return text.read()


def read(folder, crate, name):
    """Returns an edit of a crate, of a folder of edits."""
    with open(f"{folder}/{crate.name}/{name}.edit", encoding="utf-8") as text:
        lines = text.read().splitlines()
    changes, file, old = [], "", ""
    for kind, _, rest in (it.partition(": ") for it in lines):
        file, old = rest if kind == "file" else file, rest if kind == "old" else old
        if kind == "new":
            changes.append((file, old, rest))
    functions = set()
    for file, old, _ in changes:
        text = source(crate, file)
        line = text[: text.find(old)].count("\n") + 1
        function = function_at(file, text, line)
        if text.count(old) != 1 or not function:
            raise Unfit(f"{crate.name}/{name}: {file} has this text not once, or not in a function: {old.strip()}")
        functions.add(function)
    if not changes:
        raise Unfit(f"{crate.name}/{name}: it changes nothing")
    return Edit(name, changes, functions)


def apart(edits):
    """Returns the first of these edits, and each further one that has no function of one before it."""
    found, taken = [], set()
    for it in edits:
        if not it.functions & taken:
            found.append(it)
            taken |= it.functions
    return found


def checked(crate, changes, functions, words):
    """Makes changes in a copy of a crate and checks it there, with these words of the prover. If functions are named, it checks only
    these, and cuts the others out. Returns the prover's status, what it prints, as lines, and what gives the text of a file."""
    with tempfile.TemporaryDirectory(prefix="sts-edited-") as room:
        for part in PARTS:
            if os.path.isdir(f"{crate.folder}/{part}"):
                shutil.copytree(f"{crate.folder}/{part}", f"{room}/{part}")
        texts = {}
        for file, old, new in changes:
            texts[file] = texts.get(file, source(crate, file)).replace(old, new)
        for file, text in texts.items():
            with open(f"{room}/{file}", "w", encoding="utf-8") as to:
                to.write(text)
        if functions:
            cut(room, crate.name, functions)
            words = [*(word for it in sorted(functions) for word in ("--only", it)), *words]
        how = {"cwd": room, "stdin": subprocess.DEVNULL, "stdout": subprocess.PIPE, "stderr": subprocess.STDOUT}
        with open(os.devnull, "w", encoding="utf-8") as crate.out:
            words = kit.checking(crate, words)
        ran = subprocess.run(words, text=True, errors="replace", **how)
        return ran.returncode, ran.stdout.splitlines(), lambda file: texts.get(file) or source(crate, file)


def comes_to(lines, function, result):
    """Returns whether the prover's line of a function, or of a closure in it, has this result."""
    return any(re.match(rf"fn (?:\w+::)*{function}(?:::\S+)?: (?:{result})", it) for it in lines)


def reasons(lines):
    """Yields what the prover says of a place of a crate, and doesn't admit there, or couldn't show."""
    for match in filter(None, map(TOLD.match, lines)):
        if match["note"] or "error" in match["said"]:
            yield match


def is_of_a_name(match):
    """Returns whether the prover says no more than that a proof file names what an edit took away."""
    return match["path"].startswith("proofs/") and NAMES.search(match["said"]) is not None


def has_ended(lines):
    """Returns whether a check of functions came to its end, and refused nothing before the proofs."""
    return bool(lines) and bool(ENDED.match(lines[-1])) and not any(ERROR.search(it) for it in lines)


def function_of(match, texts):
    """Returns the end of the name of the function that the prover says something of, or none."""
    path = match["path"]
    if path.startswith("src/"):
        return function_at(path, texts(path), int(match["line"]))
    return "::".join(path.removeprefix("proofs/").split("/")[:-1])


def said_of(crate, edits, kept):
    """Checks edits in one copy. Returns for each edit of which something was said whether it was refused, and the prover's line."""
    functions = set().union(*(it.functions for it in edits))
    _, lines, texts = checked(crate, [it for edit in edits for it in edit.changes], functions, ["--incremental", kept])
    nameless = NO_NAME.search(lines[-1]) if lines else None
    if nameless and (rest := [it for it in edits if nameless[1] not in it.functions]):
        # (a name that the prover has otherwise, or twice)
        return said_of(crate, rest, kept) if len(rest) < len(edits) else {}
    if not has_ended(lines):
        print(f"{crate.name}: {', '.join(it.name for it in edits)}: {lines[-1][:200] if lines else 'nothing was said'}", flush=True)
        return {}
    unproved, found = {it for it in functions if comes_to(lines, it, OPEN)}, {}
    for match in reasons(lines):
        function = f"::{function_of(match, texts)}"
        for edit in edits:
            if any(function.endswith(f"::{it}") for it in edit.functions & unproved) and not found.get(edit.name, (False,))[0]:
                found[edit.name] = not is_of_a_name(match), match[0]
    return found


def tried(crate, edits):
    """Tries edits of a crate, as few times as possible. Returns for each edit of which something was said whether it was refused, and
    the prover's line."""
    with tempfile.TemporaryDirectory(prefix="sts-edited-kept-") as kept:
        left, alone, found = edits, [], {}
        while left:
            first = apart(left)
            found.update(said_of(crate, first, kept))
            left = [it for it in left if it not in first]
            alone += [it for it in first if it.name not in found and len(first) > 1]
        for it in alone:
            found.update(said_of(crate, [it], kept))
    return found


def unproved(crate, functions):
    """Checks functions of a crate as they are, while the others are cut out. Returns those that aren't proved for another reason than
    what was cut out."""
    _, lines, texts = checked(crate, [], functions, [])
    refused = {f"::{function_of(it, texts)}" for it in reasons(lines)}
    is_proved = lambda it: comes_to(lines, it, CLOSED) and not any(other.endswith(f"::{it}") for other in refused)
    return {it for it in functions if not has_ended(lines) or not is_proved(it)}
