"""Counts the threads of `run` on the built program, with a trace and with none.  [PROGRAM|--unproved]

A program of 480,052 steps is run by 1, 3 and 16 workers. Meanwhile the process has a thread for each of them, and one
that waits for them. The script looks at each run until it ends. It may look too late, so it tries up to five runs.
The last line is `N passed, M failed`.
"""
import os
import subprocess
import sys
import tempfile
import time

from checks import programs
from checks.tally import Tally

TEXT = "func main 0\npush 16\ntimes 16\npush 10000\ntimes 10000\ninterrupted\npop\nnext\nnext\npush 0\nret\nend\n"
WAYS = {"no trace": [], "a trace": ["--trace", os.devnull]}
RUNS = 5
SECONDS = 60


def most_threads(words):
    """Returns the most threads that a process is seen to have until it ends, or until it has run too long."""
    most, process = 0, subprocess.Popen(words, stdin=subprocess.DEVNULL, stdout=subprocess.DEVNULL)
    end = time.monotonic() + SECONDS
    while process.poll() is None and time.monotonic() < end:
        try:
            most = max(most, len(os.listdir(f"/proc/{process.pid}/task")))
        except OSError:
            break
    process.kill()
    process.wait()
    return most


def main():
    [program], _ = programs.taken(sys.argv[1:], "sts")
    tally = Tally()
    with tempfile.TemporaryDirectory() as folder:
        file = programs.kept(folder, "text", TEXT)
        for name, way in WAYS.items():
            for workers in (1, 3, 16):
                words = [program, "run", file, "--workers", str(workers), *way]
                found = []
                while len(found) < RUNS and max(found, default=0) < workers + 1:
                    found.append(most_threads(words))
                tally.equals(f"the most threads of {workers} workers, {name}", max(found), workers + 1)
    return tally.end()
