"""Finds a JDK 25, compiles the player and has it play cases; compares what it prints with a machine."""
import functools
import glob
import os
import re
import shutil
import subprocess
import tempfile
from typing import NamedTuple

HERE = os.path.dirname(os.path.realpath(__file__))
PLACES = ("/usr/lib/jvm/*", "/opt/*jdk*", "/opt/java/*", os.path.expanduser("~/.sdkman/candidates/java/*"),
          "/Library/Java/JavaVirtualMachines/*/Contents/Home")
# The player and the tasks share a carrier, so that a step costs no switch of threads of the system.
ONE_CARRIER = [f"-Djdk.virtualThreadScheduler.{it}=1" for it in ("parallelism", "maxPoolSize")]
MODES = [(join, threads) for join in ("late", "early") for threads in ("virtual", "platform")]


class Case(NamedTuple):
    kind: str
    name: str
    text: str
    events: tuple


def is_jdk25(home):
    if not os.access(f"{home}/bin/javac", os.X_OK):
        return False
    done = subprocess.run([f"{home}/bin/javac", "-version"], capture_output=True, text=True)
    return re.match(r"javac 25\b", done.stdout + done.stderr) is not None


def find_jdk():
    """Returns the home of a JDK 25, or None."""
    java = shutil.which("java")
    homes = [os.environ.get("JAVA_HOME", "")] + ([os.path.dirname(os.path.dirname(os.path.realpath(java)))] if java else [])
    return next((it for it in homes + sorted(it for place in PLACES for it in glob.glob(place)) if is_jdk25(it)), None)


class Jdk:
    def __init__(self, home):
        self.home = home
        done = subprocess.run([f"{home}/bin/java", "-version"], capture_output=True, text=True)
        self.build = re.search(r"\(build (.*?)\)", done.stderr)[1]
        self.vendor = re.search(r"^(.*) \(build", done.stderr, re.M)[1]

    def compile(self, folder, sources):
        """Compiles these files into a folder; returns what the compiler says, which is nothing where it agrees."""
        done = subprocess.run([f"{self.home}/bin/javac", "--enable-preview", "--release", "25", "-Xlint:all,-preview,-serial", "-d", folder, *sources],
                              capture_output=True, text=True)
        return "" if done.returncode == 0 and "warning" not in done.stderr else done.stderr

    def command(self, folder, name, *words):
        opens = ["--add-opens", "java.base/java.util.concurrent=ALL-UNNAMED"]
        return [f"{self.home}/bin/java", "--enable-preview", *opens, *words, "-cp", folder, name]


class Player:
    """The compiled player; `scopes` names the class of the runtime that it plays over."""

    def __init__(self, jdk, scopes="JdkScopes"):
        self.jdk, self.scopes = jdk, scopes
        self.folder = tempfile.mkdtemp(prefix="jdk-player-")
        said = jdk.compile(self.folder, sorted(glob.glob(f"{HERE}/*.java")))
        if said:
            raise SystemExit(f"the player can't be compiled:\n{said}")

    def printed(self, cases, *properties):
        """Yields what the player prints of each case; one JVM plays all of them."""
        with tempfile.TemporaryFile("w+") as given:
            given.writelines(f"case {number}\n{case.text.rstrip(chr(10))}\n%\n{''.join(f'{it}{chr(10)}' for it in case.events)}.\n"
                             for number, case in enumerate(cases))
            given.seek(0)
            words = [f"-D{it}" for it in (f"scopes={self.scopes}", *properties)]
            if "threads=virtual" in properties and not any(it.startswith("free=") for it in properties):
                words += ONE_CARRIER
            with subprocess.Popen(self.jdk.command(self.folder, "Player", *words), stdin=given, stdout=subprocess.PIPE, text=True) as player:
                lines = []
                for line in player.stdout:
                    if line == ".\n":
                        yield lines[1:]
                        lines = []
                    else:
                        lines.append(line.rstrip("\n"))

    def close(self):
        shutil.rmtree(self.folder)


@functools.lru_cache(1_000_000)
def seen(line):
    """Returns what the player can show of a line of `look view`: jdk/README.md has the rules."""
    words = line.split(" ")
    if words[0] == "task":
        is_unseen = words[8] not in ("ready", "waits") or words[8:10] == ["waits", "close"]
        return line.removesuffix(" interrupted") if is_unseen else line
    if words[0] == "scope":
        line = line.replace(" may-expire", "").replace(" expired", "")
        if " closed" in line:
            return line.replace(" cancelled", "")
        return line.replace(" opened", " open").replace(" attempted", " open").replace(" joined", " open")
    return line


def same_line(expected, printed):
    """A task that has left a wait, though its step hasn't come, is `woken`: it can step, and its flag isn't compared."""
    if printed.endswith(" woken"):
        return expected.removesuffix(" interrupted") == f"{printed.removesuffix(' woken')} ready"
    return expected == printed


def same_view(machine, lines):
    expected = [seen(it) for it in machine.view()]
    if len(expected) != len(lines):
        return False
    return expected == lines or all(same_line(*it) or is_wrong_form(machine, *it) for it in zip(expected, lines))


def is_wrong_form(machine, expected, printed):
    """Is a task at a `join` whose form is wrong? It can step, to a fault that Java can't say, and Java's `join` waits."""
    at, waits = expected.removesuffix(" ready"), printed.partition(" waits join ")[0]
    if at == expected or at != waits or waits == printed:
        return False
    return machine.misuse(machine.tasks[int(at.split(" ")[1])]) == "Operand"


def is_unsaid(machine):
    """Is the fault one of the stack code's own, or an `unbind` of nothing, which Java can't say?"""
    kind, number, _ = machine.fault
    task = machine.tasks[number]
    is_unbind = machine.instruction(task) is not None and machine.instruction(task).op == "unbind"
    return kind == "Operand" or is_unbind and all(entry[0] == "scope" for entry in task.entries)


def parts(printed):
    """Returns what was printed as pairs of a line `after N EVENT` and the lines below it, the first pair with no such line."""
    found = [("", [])]
    for line in printed:
        if line.startswith("after "):
            found.append((line, []))
        else:
            found[-1][1].append(line)
    return found


def first_difference(machine, case, printed):
    """Returns the number of the first event behind which a machine and what the player printed differ, or None.

    Nothing is compared behind a fault. A misuse that waits shows its fault late, so it may come anywhere behind."""
    shown = parts(printed)
    for number, (head, lines) in enumerate(shown):
        is_idle = head.endswith(" idle")
        event = " ".join(head.removesuffix(" idle").split(" ")[2:])
        counts = machine.event(event) if head else True
        if machine.fault:
            return None if is_unsaid(machine) or any(it.removeprefix("late ") == machine.root_end() for it in printed) else number
        if getattr(machine, "is_beyond", False):
            return number if lines[0].startswith("fault") else None
        if counts == is_idle or not same_view(machine, lines):
            return number
    is_whole = machine.tasks[0].end or len(shown) > len(case.events)
    return None if is_whole else len(shown)
