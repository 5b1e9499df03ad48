"""Where the programs are, and how one is run. A check finds the programs that it tests by the first words of its call:

    python3 -m checks NAME ..                the proved programs, which ./sts and ./look build
    python3 -m checks NAME PATH ..           the program at PATH, or the programs, if the check tests several
    python3 -m checks NAME --unproved ..     the programs without proofs, which are built first if a source is newer
"""
import collections
import os
import subprocess
import sys

ROOT = os.path.dirname(os.path.dirname(os.path.realpath(__file__)))
CHECKS = f"{ROOT}/checks"
UNPROVED = "--unproved"
SECONDS = 120  # how long a program may take if its check says nothing else
NO_END = "no end"  # the status of a program that takes longer

# What came of a program: its status, its standard output and its standard error.
Answer = collections.namedtuple("Answer", "status printed told")


def door(name, *words):
    """Returns the words of a command that runs a check, in any folder."""
    return [sys.executable, CHECKS, name, *words]


def proved(crate):
    """Returns the path of the proved program of a crate."""
    return f"{ROOT}/crates/{crate}/out/{crate}"


def unproved(crate):
    """Builds the program of a crate without its proofs, unless it is there and newer than all sources. Returns its path."""
    path = f"{proved(crate)}.unproved"
    subprocess.run(door("unproved", "--build", crate, path), stdin=subprocess.DEVNULL)
    return path


def needs(*paths):
    """Ends this check with status 2 if one of the programs isn't there."""
    for it in paths:
        if not os.access(it, os.X_OK):
            name = sys.argv[0].split(" ")[-1]
            ways = f"./sts and ./look build the proved programs, and python3 -m checks {name} {UNPROVED} builds them without proofs"
            print(f"{name}: no program at {it}: {ways}", file=sys.stderr)
            sys.exit(2)


def taken(words, *crates):
    """Returns the paths of the programs of these crates that the words ask for, and the other words."""
    if words[:1] == [UNPROVED]:
        paths, rest = [unproved(it) for it in crates], words[1:]
    else:
        paths = [*words[: len(crates)], *(proved(it) for it in crates[len(words) :])]
        rest = words[len(crates) :]
    paths = [os.path.realpath(it) for it in paths]
    needs(*paths)
    return paths, rest


def words_of(asked):
    """Returns the words for `taken` of a check that reads the flags `--program PATH` and `--unproved`."""
    return [UNPROVED] if asked.unproved else [asked.program] if asked.program else []


def answer(program, *words, given=None, seconds=SECONDS, is_text=True, **around):
    """Runs a program with these words. `given` is its standard input: a text, bytes, or a file; without it there is none.

    Returns its status, which is NO_END if it doesn't end in time, and what it prints, as texts or as bytes."""
    if given is None or hasattr(given, "fileno"):
        around = {"stdin": given or subprocess.DEVNULL, **around}
    else:
        around = {"input": given.encode() if isinstance(given, str) else given, **around}
    around = {"stdout": subprocess.PIPE, "stderr": subprocess.PIPE, **around}
    try:
        done = subprocess.run([program, *words], timeout=seconds, **around)
        said = done.returncode, done.stdout or b"", done.stderr or b""
    except subprocess.TimeoutExpired:
        said = NO_END, b"", b""
    return Answer(*said) if not is_text else Answer(said[0], *(it.decode(errors="replace") for it in said[1:]))


def says(program, *words, **around):
    """Returns the status of a program and what it prints on standard output."""
    return answer(program, *words, **around)[:2]


def kept(folder, name, content):
    """Returns the path of a file in the folder that has this text or these bytes now."""
    path = os.path.join(folder, name)
    with open(path, "wb") as file:
        file.write(content.encode() if isinstance(content, str) else content)
    return path
