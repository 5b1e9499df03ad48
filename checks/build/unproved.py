"""Builds a program without its proofs, keeps it, and then is that program.

    python3 -m checks unproved NAME PROGRAM [WORD..]
    python3 -m checks unproved --build NAME PROGRAM      only builds it, unless it is there and newer than all sources

NAME is what messages begin with. PROGRAM is where the program is kept: `crates/CRATE/out/CRATE.unproved`.

The program is about as fast as a proved one (kit.py says how it is made). Where the kit does it in another way, the program
that `rt try` builds is kept, which is 100 to 400 times slower. The file PROGRAM.slow then says why. Where that program isn't
found either, each call runs the words by `rt try`.
"""
import contextlib
import fcntl
import os
import signal
import sys
import tempfile
import time

from checks import kit
from checks.build import sources

ONLY_BUILDS = sys.argv[1] == "--build"
NAME, PROGRAM, *WORDS = sys.argv[1 + ONLY_BUILDS :]
PROGRAM = os.path.abspath(PROGRAM)
FOLDER = os.path.dirname(os.path.dirname(PROGRAM))  # the folder of the crate
CRATE = os.path.basename(FOLDER)
OUTSIDE = 6  # the status if the program could not be built
READS = {"sts": "list"}.get(NAME, "explain")  # a command of the program that reads one file


def say(text):
    print(f"{NAME}: {text}", file=sys.stderr, flush=True)


def interrupt(number, frame):
    raise KeyboardInterrupt


class Steps:
    """Says what the build is at, with the seconds since it began."""

    def __init__(self):
        self.since, self.number = time.time(), 0

    def __call__(self, what):
        self.number += 1
        say(f"step {self.number} of 3, after {time.time() - self.since:.0f} s: {what}")


@contextlib.contextmanager
def alone():
    """Lets one call build the program at a time. Another one waits for it."""
    os.makedirs(os.path.dirname(PROGRAM), exist_ok=True)
    with open(f"{PROGRAM}.lock", "w") as lock:
        try:
            fcntl.flock(lock, fcntl.LOCK_EX | fcntl.LOCK_NB)
        except BlockingIOError:
            say("another call builds the program; this one waits for it")
            fcntl.flock(lock, fcntl.LOCK_EX)
        yield


def built(room):
    """Builds the program in this folder. Returns its path there, why it is slow, and what `rt try` said if there is none."""
    made = f"{room}/program"
    say("building without proofs, in about two minutes on four quiet processors")
    try:
        kit.build_fast(sources.ROOT, CRATE, room, made, Steps())
        return made, None, ""
    except kit.Refused as error:
        return None, None, str(error)
    except kit.Other as error:
        why = str(error)
    say(f"building a slow program, in some five minutes, since the fast build doesn't fit this kit: {why}")
    with contextlib.suppress(FileNotFoundError):
        os.remove(made)
    said = kit.build_slow(FOLDER, READS, room, made)
    return made if kit.answers(made) else None, why, said


def keep():
    """Builds the program and puts it where it is kept. Returns whether it is there, and what `rt try` said if it isn't."""
    since = time.time()
    with tempfile.TemporaryDirectory(prefix="unproved-", dir=os.path.dirname(PROGRAM)) as room:
        made, why, said = built(room)
        if not made:
            return False, said
        with contextlib.suppress(FileNotFoundError):
            os.remove(f"{PROGRAM}.slow")
        if why:
            with open(f"{PROGRAM}.slow", "w") as file:
                file.write(f"{why}\n")
        # (a source that was edited since the build began is newer than the program)
        os.utime(made, (since, since))
        os.replace(made, PROGRAM)
    sources.write(PROGRAM, CRATE)
    return True, ""


def main():
    try:
        kit.folder()
    except kit.Other as error:
        say(str(error))
        return OUTSIDE
    for number in (signal.SIGTERM, signal.SIGHUP):
        signal.signal(number, interrupt)
    try:
        with alone():
            is_kept, said = (True, "") if sources.is_current(PROGRAM, CRATE) else keep()
    except KeyboardInterrupt:
        say("interrupted; the program was not built")
        return OUTSIDE
    if is_kept and ONLY_BUILDS:
        return 0
    if is_kept:
        say("not proved: this program was built without its proofs")
        os.execv(PROGRAM, [NAME, *WORDS])
    if not kit.runs(said):
        print(said, end="", file=sys.stderr)
        say("the program was not built")
        return OUTSIDE
    say("running without proofs; with this kit the program can't be kept, so each call builds it again")
    status = kit.run_by_try(FOLDER, WORDS)
    return OUTSIDE if status is None else status
