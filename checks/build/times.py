"""Runs the gate, `rt ci`, and then prints the processor seconds of each crate: its proofs, its tests' proofs, its must-fail edits.

It has `rt ci` prove as many crates side by side as there are processors, but no more than one for each 4 GiB of memory that is
free. By itself `rt ci` plans with two to four times the memory that our crates take, and leaves processors idle. RT_JOBS names
another number.

The output of the gate goes to standard output as it comes, and the table follows it. The status is the gate's.
The figures are read off /proc twice a second, so a process that ends between two readings loses half a second at most.
"""
import collections
import os
import re
import subprocess
import sys
import threading
import time

from checks import kit
from checks.programs import ROOT

TICK = os.sysconf("SC_CLK_TCK")
OF_A_CRATE = 4 << 30  # the bytes that are free for each proof of a crate; the largest takes 4.3 GB, most take less than 2.5
KINDS = ["proofs", "tests", "edits"]


def looked_at(pid):
    """Returns the crate, the kind of work and the processor seconds of a process of the prover, or none."""
    try:
        words = open(f"/proc/{pid}/cmdline", "rb").read().decode(errors="replace").split("\0")
        crate = kit.crate_of(words)
        if not words[0].endswith("/rattle") or not crate:
            return None
        is_edit = bool(re.search("/(rt-edit|sts-edited)-", os.readlink(f"/proc/{pid}/cwd")))
        stat = open(f"/proc/{pid}/stat").read().rsplit(")", 1)[1].split()
    except (OSError, IndexError):
        return None
    kind = "edits" if is_edit else "tests" if "--test" in words else "proofs"
    return crate, kind, (int(stat[11]) + int(stat[12])) / TICK


def watch(seen, ended):
    while not ended.is_set():
        for pid in filter(str.isdigit, os.listdir("/proc")):
            found = looked_at(pid)
            if found:
                seen[pid, found[0], found[1]] = found[2]
        time.sleep(0.5)


def table(seen):
    sums = collections.defaultdict(lambda: dict.fromkeys(KINDS, 0.0))
    for (_, crate, kind), seconds in seen.items():
        sums[crate][kind] += seconds
    rows = sorted(sums.items(), key=lambda it: -sum(it[1].values()))
    yield f"{'crate':<20}" + "".join(f"{it:>9}" for it in [*KINDS, "all"])
    for crate, by in rows:
        yield f"{crate:<20}" + "".join(f"{by[it]:>9.0f}" for it in KINDS) + f"{sum(by.values()):>9.0f}"
    whole = {it: sum(by[it] for by in sums.values()) for it in KINDS}
    yield f"{'all':<20}" + "".join(f"{whole[it]:>9.0f}" for it in KINDS) + f"{sum(whole.values()):>9.0f}"


def side_by_side():
    """Returns how many crates are proved at a time."""
    free = os.sysconf("SC_AVPHYS_PAGES") * os.sysconf("SC_PAGE_SIZE")
    with open("/proc/meminfo", encoding="ascii") as told:
        free = max([free, *(1024 * int(it.split()[1]) for it in told if it.startswith("MemAvailable:"))])
    return max(1, min(len(os.sched_getaffinity(0)), free // OF_A_CRATE))


def main():
    os.environ.setdefault("RT_JOBS", str(side_by_side()))
    seen, ended, since = {}, threading.Event(), time.time()
    looking = threading.Thread(target=watch, args=(seen, ended))
    looking.start()
    status = subprocess.run(sys.argv[1:] or ["rt", "ci"], cwd=ROOT, stdin=subprocess.DEVNULL).returncode
    ended.set()
    looking.join()
    print(f"\nprocessor seconds, of {time.time() - since:.0f} seconds by the clock")
    print("\n".join(table(seen)), flush=True)
    return status
