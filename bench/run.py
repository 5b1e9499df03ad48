#!/usr/bin/env python3
"""Prints tables of the throughputs of `sts` and `look`, each the least time of several runs.
usage: run.py [PATH_OF_sts [PATH_OF_look]]  (RUNS=9)

ONLY=workers prints one of the tables: texts, machines, workers, scopes, work, growth, labels or ends. Rates are of the whole process
less the time that a text of one function takes. `growth` has 1, 2, 4 and 8 times the work, and the exponent: the slope by which
the logarithm of the time, less that of a text of one function, grows with that of the work. In proportion it is 1. Its times are
those of the processor, which depend less on what else the machine does.
Runs by workers are taken in turns, one by each number of workers after the other.
They have no journal, and their median is printed too. If processors are shared, a few runs mislead: for figures like those
of docs/SPEED.md use RUNS=300 ONLY=workers on a machine that does nothing else.
"""
import itertools
import math
import os
import statistics
import subprocess
import sys
import tempfile
import time

import make_texts

HERE = os.path.dirname(os.path.abspath(__file__))
RUNS = int(os.environ.get("RUNS", "9"))
# the words of the line, or the launchers in the root folder
STS, LOOK = (os.path.abspath(given or os.path.join(HERE, "..", name)) for given, name in zip((sys.argv + ["", ""])[1:3], ("sts", "look")))
WORKERS = (1, 2, 4)
WORK = ("polling_50", "polling_500", "polling_5000", "subtasks_5", "subtasks_50", "subtasks_500", "subtasks_5000")
WORK += ("short_then_wide", "short_then_500", "row_of_600", "fans_of_500", "one_long_task", "burst")


def once(command, statuses=(0, 1)):
    """How long one run takes, which may end with these statuses, and what it prints."""
    start = time.perf_counter()
    done = subprocess.run(command, stdout=subprocess.PIPE, stderr=subprocess.PIPE)
    seconds = time.perf_counter() - start
    if done.returncode not in statuses:
        raise SystemExit(f"{' '.join(command)}: status {done.returncode}: {done.stdout[:200]!r}")
    return seconds, done.stdout


def least_seconds(command):
    times, printed = zip(*(once(command) for _ in range(RUNS)))
    return min(times), printed[-1]


# Run by itself, as a child begins with the memory of the process that started it.
COUNT = """
import os, sys, time
null = [(os.POSIX_SPAWN_OPEN, 1, os.devnull, os.O_WRONLY, 0)]
start = time.perf_counter()
_, status, usage = os.wait4(os.posix_spawn(sys.argv[1], sys.argv[1:], os.environ, file_actions=null), 0)
print(time.perf_counter() - start, usage.ru_utime + usage.ru_stime, usage.ru_nvcsw, usage.ru_maxrss / 1024, status)
"""


def counted(command, statuses=(0,)):
    """Seconds, seconds of processors, waits and MiB of one run, which may end with these statuses."""
    *figures, status = map(float, subprocess.check_output([sys.executable, "-c", COUNT, *command]).split())
    if status / 256 not in statuses:
        raise SystemExit(f"{' '.join(command)}: status {status / 256}")
    return figures


def instructions(path):
    """The lines of a text that are instructions."""
    with open(path) as file:
        words = [line.split(";")[0].split() for line in file]
    return sum(1 for w in words if w and w[0] not in ("func", "end", "profile") and not w[0].endswith(":"))


def steps_of(output):
    """The steps that a run took, which are printed last."""
    return int(output.decode().split("steps ")[-1])


def million(count, seconds, base):
    return count / 1e6 / max(seconds - base, 1e-6)


def texts(program, at, base):
    """Rows of texts that are read."""
    print(f"\n{'case':38}{'ms':>9}{'MB/s':>9}{'million/s':>11}")
    for mode, name in itertools.product(("list", "verify"), ("straight.sts", "scopes.sts")):
        seconds, _ = least_seconds([program, mode, at(name)])
        bytes_, lines = (million(it, seconds, base) for it in (os.path.getsize(at(name)), instructions(at(name))))
        print(f"{'assemble and ' + mode + ' ' + name:38}{seconds * 1e3:9.2f}{bytes_:9.1f}{lines:11.2f}")


def machines(program, at, base):
    """Rows of traces that are run."""
    print(f"\n{'case':38}{'ms':>9}{'million/s':>11}")
    for mode, name in itertools.product(("plain", "replay"), ("loop", "fan_out")):
        seconds, output = least_seconds([program, mode, at(name + ".sts"), at(name + ".trace")])
        print(f"{mode + ' ' + name + ', steps':38}{seconds * 1e3:9.2f}{million(steps_of(output), seconds, base):11.2f}")


def workers(program, at, base):
    """Rows of runs by workers: of subtasks with long work of their own, and of 90,000 scopes with a short subtask each."""
    print(f"\n{'case':38}{'ms':>9}{'median':>9}{'million/s':>11}")
    for name in ("fan_of_loops", "fan_out"):
        times, output = {count: [] for count in WORKERS}, b""
        for _, count in itertools.product(range(RUNS), WORKERS):
            seconds, output = once([program, "run", at(name + ".sts"), "--workers", str(count)])
            times[count].append(seconds)
        for count, taken in times.items():
            rate = million(steps_of(output), min(taken), base)
            print(f"{f'run {name} by {count}, steps':38}{min(taken) * 1e3:9.2f}{statistics.median(taken) * 1e3:9.2f}{rate:11.2f}")


def scopes(program, at, base):
    """Rows of runs of many scopes, as jdk/ScopesBench.java has them."""
    print(f"\n{'case':38}{'ms':>9}{'median':>9}{'of proc.':>10}{'MiB':>7}")
    for name, count in itertools.product(("short_scopes", "wide_scope", "chains"), WORKERS):
        seconds, processors, _, most = zip(*(counted([program, "run", at(name + ".sts"), "--workers", str(count)]) for _ in range(RUNS)))
        least, median = min(seconds) * 1e3, statistics.median(seconds) * 1e3
        print(f"{f'run {name} by {count}':38}{least:9.2f}{median:9.2f}{min(processors) * 1e3:10.2f}{min(most):7.1f}")


def work(program, at, base):
    """Rows of runs in which several workers may be slow. Each figure is the least, but the waits are the median."""
    print(f"\n{'case':38}{'ms':>9}{'times 1':>9}{'of proc.':>10}{'waits':>8}{'MiB':>7}")
    for name in WORK:
        figures = {count: [] for count in WORKERS}
        for _, count in itertools.product(range(RUNS), WORKERS):
            figures[count].append(counted([program, "run", at(name + ".sts"), "--workers", str(count)]))
        first = min(figures[1])[0]
        for count, rows in figures.items():
            seconds, processors, waits, most = zip(*rows)
            print(
                f"{f'run {name} by {count}':38}{min(seconds) * 1e3:9.2f}{min(seconds) / first:9.2f}"
                f"{min(processors) * 1e3:10.2f}{statistics.median(waits):8.0f}{min(most):7.1f}"
            )


# The commands whose growth is shown, and the texts by the amount of work; a command of `look` names a trace where it takes one.
GROWING = [
    ("sts list", ("straight", "scopes")),
    ("sts verify", ("straight", "scopes")),
    ("sts plain TRACE", ("loop", "fan_out", "chain", "last_of_many", "fifties", "never_run")),
    ("sts replay TRACE", ("loop", "fan_out")),
    ("sts run --workers 1", ("fan_out", "wide")),
    ("look view TRACE", ("row", "many_chains")),
    ("look view TRACE --living", ("row",)),
    ("look view TRACE --each", ("turns",)),
    ("look explain", ("straight", "scopes", "one_function", "unequal", "heavy")),
    ("look explain TRACE", ("row", "many_chains")),
    ("look draw TRACE", ("row",)),
]
TIMES = (1, 2, 4, 8)


def slope(values):
    """The slope of a line through the logarithms of values at 1, 2, 4 and 8."""
    xs, ys = [math.log(it) for it in TIMES], [math.log(max(it, 1e-6)) for it in values]
    x, y = statistics.mean(xs), statistics.mean(ys)
    return sum((a - x) * (b - y) for a, b in zip(xs, ys)) / sum((a - x) ** 2 for a in xs)


def growth(program, at, base):
    """Rows of commands with 1, 2, 4 and 8 times the work, and the memory that the last takes."""
    starts = {"sts": [program, "list", at("small.sts")], "look": [LOOK, "explain", at("small.sts")]}
    least = {tool: min(counted(line)[1] for _ in range(RUNS)) for tool, line in starts.items()}
    print(f"\n{'processor ms, by the work':38}" + "".join(f"{it:>9}" for it in TIMES) + f"{'exponent':>10}{'MiB':>7}")
    for command, names in GROWING:
        tool, mode, *options = command.split()
        for name in names:
            rows = []
            for times in TIMES:
                words = [at(f"{name}{times}.trace") if it == "TRACE" else it for it in options]
                line = [program if tool == "sts" else LOOK, mode, at(f"{name}{times}.sts"), *words]
                rows.append([counted(line, (0, 4, 5)) for _ in range(RUNS)])
            seconds = [min(it[1] for it in row) for row in rows]
            shown = "".join(f"{it * 1e3:9.2f}" for it in seconds)
            words = " ".join([tool, mode, name, *(it for it in options if it != "TRACE")])
            print(f"{words:38}{shown}{slope([it - least[tool] for it in seconds]):10.2f}{min(it[3] for it in rows[-1]):7.0f}", flush=True)


def labels(program, at, base):
    """Rows of texts with 1, 2, 4 and 8 times the labels, and the time compared with the smallest."""
    print(f"\n{'case':38}{'ms':>9}{'times the first':>18}")
    for name in ("colliding", "alike"):
        first = None
        for times in (1, 2, 4, 8):
            seconds, _ = least_seconds([program, "list", at(f"{name}{times}.sts")])
            first = first or seconds
            print(f"{f'list {name} labels, {times} times':38}{seconds * 1e3:9.2f}{seconds / first:18.1f}")


def ends(program, at, base):
    """Rows of searches for all ends, with the last line that each prints."""
    print(f"\n{'case':48}{'of proc. s':>11}{'MiB':>7}  said")
    for name, (_, interrupts) in make_texts.ENDS.items():
        line = [LOOK, "ends", at(name + ".sts"), "--interrupts", str(interrupts)]
        _, seconds, _, most = min((counted(line, (0, 5)) for _ in range(RUNS)), key=lambda it: it[1])
        said = once(line, (0, 5))[1].decode().splitlines()[-1]
        print(f"{name + f', +{interrupts}':48}{seconds:11.2f}{most:7.0f}  {said}", flush=True)


TABLES = {it.__name__: it for it in (texts, machines, workers, scopes, work, growth, labels, ends)}


def main():
    only = os.environ.get("ONLY")
    if only and only not in TABLES:
        raise SystemExit(f"ONLY={only}: the tables are {', '.join(TABLES)}")
    with tempfile.TemporaryDirectory() as folder:
        subprocess.run([sys.executable, os.path.join(HERE, "make_texts.py"), folder], check=True)
        at = lambda name: os.path.join(folder, name)
        small = at("small.sts")
        with open(small, "w") as file:
            file.write("func main 0\npush 7\nret\nend\n")
        base, _ = least_seconds([STS, "list", small])
        print(f"{'a text of one function':38}{base * 1e3:9.2f} ms")
        for table in [TABLES[only]] if only else TABLES.values():
            table(STS, at, base)


main()
