"""Proves and builds a program, says how far it is, and then runs the command that it was given, if any.

    python3 -m checks build [PROGRAM WORD..]

The program is `crates/NAME/out/NAME`, and NAME is taken from it. Without a word it is `sts`.

A crate starts once those below it are done. The crate with the most work above it comes first, and may use two processors.
Some more crates are at work than there are processors, and the less work a crate has above it, the nicer its prover is to
the others (see `nice`). So an urgent crate waits for few others, and processors are seldom idle. Near the end few crates
are left, and each may use all processors. If the kit isn't as kit.py knows it, `rt all check` proves the crates and `rt run`
the program, which takes about twice as long.

The statements of each crate are kept in crates/*/out, since the crates above need them. They are a tenth of its proofs.
An interrupted build goes on with the crates that were not done. The program of before stays until the new one is there.
On a terminal one line is rewritten; elsewhere there is a line whenever work on a crate begins. A call that finds another
one at work waits for it.
"""
import concurrent.futures
import contextlib
import fcntl
import os
import re
import shutil
import signal
import subprocess
import sys
import time

from checks import kit
from checks.build import sources
from checks.programs import ROOT, door

IS_WORKER = sys.argv[1:2] == ["--work"]
WORDS = sys.argv[2:] if IS_WORKER else sys.argv[1:]
PROGRAM = os.path.basename(WORDS[0]) if WORDS else "sts"
NAME = PROGRAM.replace("sts_", "")
BUILT = f"{ROOT}/crates/{PROGRAM}/out/{PROGRAM}"
LOG = f"{os.path.dirname(BUILT)}/build.log"
LOCK = f"{ROOT}/crates/sts/out/build.lock"  # of every program: one is built at a time
HEADING = re.compile(r"^== (\w+)$", re.M)
OTHERWISE = 75  # the worker's status if the kit isn't as it expects
FIRST = {"sts": "11 to 45 minutes", "look": "half an hour or more"}  # how long a first call takes: docs/SPEED.md
LEAST_URGENT = 19  # the niceness of a process that gets a processor only if no other wants one
READING = 4000  # so many bytes of code cost as much as reading the crates below
LARGE_PAGES = "glibc.malloc.hugetlb=1"  # the C library then asks for large pages, which saves the prover some 3 % of its time


def free():
    """Returns the free memory in GiB."""
    with open("/proc/meminfo") as memory:
        return next(int(line.split()[1]) for line in memory if line.startswith("MemAvailable:")) / 2**20


def side_by_side():
    """Returns how many crates to prove at a time: one for each processor that has 4 GiB."""
    return max(1, min(len(os.sched_getaffinity(0)), int(free() / 4)))


def log_alone():
    """Returns the log, and a lock that only this call holds."""
    for it in (LOG, LOCK):
        os.makedirs(os.path.dirname(it), exist_ok=True)
    lock = open(LOCK, "w")
    try:
        fcntl.flock(lock, fcntl.LOCK_EX | fcntl.LOCK_NB)
    except BlockingIOError:
        print(f"{NAME}: another call proves and builds a program; this one waits for it", file=sys.stderr)
        fcntl.flock(lock, fcntl.LOCK_EX)
    return open(LOG, "ab"), lock


def is_current():
    """Tells whether the program is there and newer than all that it is built of; then its time is set to now."""
    now = time.time()
    if not sources.is_current(BUILT, PROGRAM):
        return False
    os.utime(BUILT, (now, now))
    return True


# The worker: a process of its own. Its output is the log.


def weight(crate):
    """Returns a rough measure of what a crate's proof costs: the bytes of its code, and as much for each crate as reading
    the crates below it costs. Definitions and lemmas say less."""
    files = [f"{at}/{it}" for at, _, found in os.walk(f"{crate.folder}/src") for it in found]
    return READING + sum(map(os.path.getsize, files))


def urgent_first(crates):
    """Returns the crates, those with the most work above them first."""
    behind = {it: 0 for it in crates}
    for it in sorted(crates, key=lambda it: -len(it.below())):
        behind[it] += weight(it)
        for below in it.deps:
            behind[below] = max(behind[below], behind[it])
    return sorted(crates, key=lambda it: -behind[it])


def prove_all(crates, lanes):
    """Proves the crates, each once those below it are, and returns whether all are."""
    order = urgent_first(crates)
    left, done, running, most = list(order), set(), {}, lanes + lanes // 2
    with concurrent.futures.ThreadPoolExecutor(max(1, len(crates))) as pool:
        while left or running:
            for crate in [it for it in left if done.issuperset(it.deps)]:
                if len(running) >= most or running and free() < 4:
                    break
                undone = [it for it in order if it not in done]
                jobs = lanes if len(undone) <= 2 * lanes else 2 if crate is undone[0] else 1
                niceness = LEAST_URGENT * order.index(crate) // len(order)
                left.remove(crate)
                running[pool.submit(kit.prove, crate, min(jobs, lanes), niceness)] = crate
            for it in concurrent.futures.wait(running, return_when=concurrent.futures.FIRST_COMPLETED).done:
                crate = running.pop(it)
                is_proved, said = it.result()
                print(f"== {crate.name}\n{said}", end="", flush=True)
                if not is_proved:
                    left = []
                    continue
                done.add(crate)
    return len(done) == len(crates)


def work():
    """Proves everything that the program depends on, and builds it. It is checked once, as it is built."""
    os.environ.setdefault("GLIBC_TUNABLES", LARGE_PAGES)
    try:
        lanes = side_by_side()
        os.chdir(f"{ROOT}/crates/{PROGRAM}")
        top = kit.crate(ROOT, PROGRAM, {})
        kit.locked(top)
    except (kit.Other, OSError) as error:
        print(f"kit.py doesn't know this kit: {error}", flush=True)
        return OTHERWISE
    if not prove_all(top.below(), lanes):
        return 1
    print("== summary", flush=True)
    data = open("stdin", "rb").read() if os.path.exists("stdin") else b""
    return kit.build_and_run(top, lanes, data)


# The watcher.


def start(log):
    """Starts the build."""
    log.truncate(0)
    otherwise = f"rt all check --jobs {side_by_side()} < /dev/null && exec rt run < stdin"
    build = f'"$@" < /dev/null; status=$?; [ $status = {OTHERWISE} ] || exit $status; {otherwise}'
    how = {"cwd": f"{ROOT}/crates/{PROGRAM}", "stdout": log, "stderr": log, "start_new_session": True}
    return subprocess.Popen(["sh", "-c", build, "sh", *door("build", "--work", PROGRAM)], **how)


def words_of(number, session):
    """Returns the words of a process of the build, or none for another process or one that has ended."""
    try:
        return open(f"/proc/{number}/cmdline").read().split("\0") if os.getsid(number) == session else []
    except OSError:
        return []


def of_build(session):
    """Returns the processes of the build, with their words."""
    words = {it: words_of(it, session) for it in map(int, filter(str.isdigit, os.listdir("/proc")))}
    return {number: it for number, it in words.items() if it}


def at_work(session):
    """Returns the crates that the build is at."""
    return sorted({kit.crate_of(words) for words in of_build(session).values()} - {None})


def stop(process):
    """Ends the build and waits for its end; what it doesn't end itself is ended here."""
    process.terminate()
    for number in of_build(process.pid):
        with contextlib.suppress(ProcessLookupError):
            os.kill(number, signal.SIGTERM)
    process.wait()


def progress(process, names, since):
    """Returns what the build is at, and a line that says how far it is. A crate that is done has a heading in the log."""
    log = open(LOG, errors="replace").read()
    headings = set(HEADING.findall(log))
    is_proved = "summary" in headings
    now = [] if is_proved else at_work(process.pid)
    done = headings.intersection(names).difference(now)
    minutes, seconds = divmod(int(time.time() - since), 60)
    line = f"{NAME}: {len(done)} of {len(names)} crates proved, {len(set(kit.PROVED.findall(log)))} functions in {minutes} min {seconds:02} s"
    if is_proved:
        return {"program"}, f"{line}; building the program"
    if not headings and not now:
        return {"sources"}, f"{line}; reading all sources"
    return set(now), f"{line}; at {', '.join(now) or 'the next'}"


def watch(process, names, since):
    """Says how far the build is until it ends."""
    said, is_terminal = set(), sys.stderr.isatty()
    while process.poll() is None:
        doing, line = progress(process, names, since)
        if is_terminal:
            sys.stderr.write(f"\r\x1b[K{line[:shutil.get_terminal_size().columns - 1]}")
        elif not doing <= said:
            sys.stderr.write(f"{line}\n")
        sys.stderr.flush()
        said |= doing
        time.sleep(0.5)
    if is_terminal:
        sys.stderr.write("\n")


def changed_at():
    """Returns when the program was built, or 0 if it isn't there."""
    return os.path.getmtime(BUILT) if os.path.exists(BUILT) else 0


def build(log, names):
    """Builds the program, and returns whether it is there. Its time is that of the start: what is edited since is newer."""
    since, before = time.time(), changed_at()
    what = "a source is newer than the program: this call proves again what changed, and builds it" if before else (
        f"the first call proves and builds the program, in {FIRST[NAME]}; later calls take less")
    print(f"{NAME}: {what} (./{NAME} --unproved takes two minutes, and proves nothing); log: {LOG}", file=sys.stderr)
    process = None
    try:
        with delayed():
            process = start(log)
        watch(process, names, since)
    except KeyboardInterrupt:
        if process:
            stop(process)
        print(f"\n{NAME}: interrupted; what was proved is kept, and the next call goes on from there", file=sys.stderr)
        return False
    except OSError:  # (nobody reads standard error any more)
        stop(process)
        return False
    if changed_at() in (0, before):
        print(f"{NAME}: not built; the end of {LOG}:", file=sys.stderr)
        print("".join(open(LOG, errors="replace").readlines()[-5:]), end="", file=sys.stderr)
        return False
    os.utime(BUILT, (since, since))
    return True


def interrupt(number, frame):
    raise KeyboardInterrupt


@contextlib.contextmanager
def delayed():
    """Delays an interrupt until the end of a block."""
    came = []
    before = {it: signal.signal(it, lambda *_: came.append(it)) for it in (signal.SIGINT, signal.SIGTERM, signal.SIGHUP)}
    try:
        yield
    finally:
        for it, handler in before.items():
            signal.signal(it, handler)
    if came:
        raise KeyboardInterrupt


def main():
    if IS_WORKER:
        return work()
    try:
        kit.folder()
    except kit.Other as error:
        print(f"{NAME}: {error}", file=sys.stderr)
        return 6
    for number in (signal.SIGTERM, signal.SIGHUP):
        signal.signal(number, interrupt)
    try:
        (log, _lock), names = log_alone(), sources.needed(sources.crates(), PROGRAM, [])
        is_there = is_current() or build(log, names)
        if is_there:
            sources.write(BUILT, PROGRAM)
    except KeyboardInterrupt:
        return 6
    if is_there and sys.argv[1:]:
        os.execv(sys.argv[1], sys.argv[1:])
    return 0 if is_there else 6
