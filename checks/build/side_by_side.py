"""Times one command in two folders, such as the first builds of two commits, on a machine whose speed changes.

    python3 -m checks side_by_side FOLDER FOLDER COMMAND WORD ..

For example, in two fresh clones, OLD and NEW:

    python3 -m checks side_by_side OLD NEW ./sts verify examples/sum.sts

It starts the command in both folders, and lets them work by turns: while one works, all processes of the other are stopped.
So both meet the same slow and fast minutes. Once one has ended, the other goes on alone. It prints for each how many
seconds its turns took and how many processor seconds it used, and then the second time divided by the first. What the
commands print goes to FOLDER.log, next to the folder. The status is 0 if both commands returned 0.
"""
import contextlib
import os
import signal
import subprocess
import sys
import time

TURN = 20.0  # seconds
LOOK = 0.05  # seconds between two looks at whether the command has ended
MARK = "STS_SIDE"  # a variable in the environment of a command; most of what it starts has it, too


class Side:
    """A command at work in a folder."""

    def __init__(self, number, folder, words):
        self.folder, self.mark = folder, f"{MARK}={os.getpid()}.{number}".encode()
        self.seconds, self.processor, self.status = 0.0, 0.0, None
        environment = dict([*os.environ.items(), tuple(self.mark.decode().split("="))])
        with open(f"{folder.rstrip('/')}.log", "wb") as log:
            how = {"stdin": subprocess.DEVNULL, "stdout": log, "stderr": log, "start_new_session": True}
            self.process = subprocess.Popen(words, cwd=folder, env=environment, **how)
        self.signal(signal.SIGSTOP)

    def processes(self):
        """Returns the numbers of the command's processes: those with the mark in their environment, and all that these
        have started, since the prover clears the environment of the compiler that it starts."""
        found, parents = set(), {}
        for number in map(int, filter(str.isdigit, os.listdir("/proc"))):
            with contextlib.suppress(OSError), open(f"/proc/{number}/environ", "rb") as it, open(f"/proc/{number}/stat") as stat:
                parents[number] = int(stat.read().rsplit(")", 1)[1].split()[1])
                if self.mark in it.read().split(b"\0"):
                    found.add(number)
        while new := {number for number, parent in parents.items() if parent in found} - found:
            found |= new
        return found

    def signal(self, which):
        """Sends a signal to all processes of the command, also to those that are started meanwhile."""
        told = set()
        while new := self.processes() - told:
            for number in new:
                with contextlib.suppress(ProcessLookupError):
                    os.kill(number, which)
            told |= new

    def turn(self):
        """Lets the command work for a turn, or until it ends."""
        self.signal(signal.SIGCONT)
        since = time.monotonic()
        while self.status is None and time.monotonic() - since < TURN:
            number, status, used = os.wait4(self.process.pid, os.WNOHANG)
            if number:
                self.status = os.waitstatus_to_exitcode(status)
                self.processor = used.ru_utime + used.ru_stime
            else:
                time.sleep(LOOK)
        self.seconds += time.monotonic() - since
        if self.status is None:
            self.signal(signal.SIGSTOP)

    def end(self):
        """Ends what is left of the command."""
        self.signal(signal.SIGKILL)


def main():
    if len(sys.argv) < 4 or sys.argv[1].startswith("-"):
        print(__doc__)
        return 0 if sys.argv[1:] else 2
    first, second, *words = sys.argv[1:]
    sides = []
    try:
        for number, folder in enumerate((first, second)):
            sides.append(Side(number, folder, words))
        while left := [it for it in sides if it.status is None]:
            for side in left:
                side.turn()
    finally:
        for side in sides:
            side.end()
    for side in sides:
        print(f"{side.folder}: {side.seconds:.0f} s, {side.processor:.0f} processor s, status {side.status}")
    print(f"{sides[1].seconds / sides[0].seconds:.3f}")
    return 0 if all(it.status == 0 for it in sides) else 1
