"""Runs the checks of the gate side by side.  before|after [--wait|--unproved]

    before    what needs no program: documents, prose, and whether each wrong body and each mistake can be planted
    after     what tests the programs that `rt ci` has built; with --unproved the programs without proofs

With --wait, `after` waits for the programs that an `rt ci` builds meanwhile: each check starts once those that it runs have come,
or at the signal USR1, which says that `rt ci` has ended. The gate runs it so beside `rt ci`, which leaves processors idle while it
builds its last programs.

As many run at a time as there are processors, those first that take longest. What a check prints comes in one piece at its
end, below its name, its status and its seconds. The last line says which failed; the status is 1 if one did.
"""
import concurrent.futures
import glob
import os
import signal
import subprocess
import sys
import threading
import time

from checks.programs import ROOT, UNPROVED, door, proved, unproved

# (short.jsonl takes the reader too long: `cases` asks `look` for its answers)
READER = [sys.executable, "vectors/reader", *(it for it in sorted(glob.glob("vectors/*.jsonl", root_dir=ROOT)) if not it.endswith("/short.jsonl"))]
BEFORE = {
    "reader": READER,
    "prose": door("prose"),
    "documents": door("documents"),
    "planted --fit": door("planted", "--fit"),
    "mistakes --fit": door("mistakes", "--fit"),
}
STS, LOOK, BOTH, RECORD = ["sts"], ["look"], ["sts", "look"], "record"
# The programs that each check runs, or some parts of a check, those first that take longest. Two compilers build each program.
PROGRAMS = {RECORD: BOTH, "ends": [*BOTH, "look.by-rattle"], "launchers": BOTH,
            "memory requests_of_sts threads_of_sts requests_of_look": BOTH, "memory single_calls": [*BOTH, "tests_rows"], "rows": STS,
            "streams": BOTH, "shown": BOTH, "looks": BOTH, "cases": LOOK, "call_ends": LOOK, "heaviest": LOOK, "edges": BOTH,
            "outsides": STS, "each_cause": BOTH, "look_rows": LOOK, "workers": STS, "waits": ["tests_waits"]}
WAIT = "--wait"
LOOKS = 1  # how many seconds after a look for programs the next one comes
SETTLED = 5  # A program is whole so many seconds after its file came.


def words_of(check, words):
    """Returns the command of a check of the built programs. Parts are named behind the programs."""
    name, *parts = check.split()
    return door(name, *(words or [proved(it) for it in BOTH] if parts else words), *parts)


def after(words):
    """Returns the checks of the built programs."""
    named = ["--sts", f"{proved('sts')}.unproved", "--look", f"{proved('look')}.unproved"] if words else []
    return {it: [sys.executable, "record/test.py", *named] if it == RECORD else words_of(it, words) for it in PROGRAMS}


def has_come(program, since):
    """Returns whether a program came after a time, and is whole."""
    crate, dot, compiler = program.partition(".")
    try:
        return since <= os.stat(f"{proved(crate)}{dot}{compiler}").st_ctime < time.time() - SETTLED
    except OSError:
        return False


def starts(is_waiting):
    """Returns what says whether a check can start."""
    began, ended = time.time(), threading.Event()
    if is_waiting:
        signal.signal(signal.SIGUSR1, lambda number, frame: ended.set())
    return lambda check: not is_waiting or ended.is_set() or all(has_come(it, began) for it in PROGRAMS[check])


def ran(name, words):
    """Runs a check, and returns its name, its status, what it prints, and the seconds."""
    since = time.monotonic()
    done = subprocess.run(words, cwd=ROOT, stdin=subprocess.DEVNULL, stdout=subprocess.PIPE, stderr=subprocess.STDOUT, text=True, errors="replace")
    return name, done.returncode, done.stdout, time.monotonic() - since


def side_by_side(checks, can_start):
    """Runs these checks, each once it can start. Prints what each says, and returns the names of those that failed."""
    failed, left, running, parent = [], dict(checks), set(), os.getppid()
    with concurrent.futures.ThreadPoolExecutor(len(os.sched_getaffinity(0))) as pool:
        while left or running:
            for it in filter(can_start, list(left)):
                running.add(pool.submit(ran, it, left.pop(it)))
            ended, running = concurrent.futures.wait(running, LOOKS if left else None, concurrent.futures.FIRST_COMPLETED)
            for name, status, said, seconds in (it.result() for it in ended):
                print(f"== {name}: {'failed' if status else 'passed'} in {seconds:.0f} s\n{said}", end="", flush=True)
                failed += [name] if status else []
            if left and os.getppid() != parent:
                sys.exit("gate: what started it has ended")
            time.sleep(0 if ended or running else LOOKS)
    return failed


def main():
    words = sys.argv[1:]
    if words[:1] not in (["before"], ["after"]) or words[1:] not in ([], [UNPROVED], [WAIT]):
        print(__doc__, file=sys.stderr)
        return 2
    if words[1:] == [UNPROVED]:
        for it in ("sts", "look", "tests_rows", "tests_waits"):  # (before the clock runs)
            unproved(it)
    since, is_waiting = time.monotonic(), words == ["after", WAIT]
    checks = BEFORE if words[0] == "before" else after([] if is_waiting else words[1:])
    failed = side_by_side(checks, starts(is_waiting))
    print(f"{len(checks)} checks in {time.monotonic() - since:.0f} s; failed: {', '.join(failed) or 'none'}")
    return 1 if failed else 0
