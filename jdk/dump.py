#!/usr/bin/env python3
"""Shows the scopes and threads of a Java program that hangs.  usage: jdk/dump.py DUMP [--svg FILE] | --try

    jcmd PID Thread.dump_to_file -format=json dump.json
    jdk/dump.py dump.json                  a line for each thread that owns a scope or runs in one, and for each scope
    jdk/dump.py dump.json --svg hang.svg   also draws them, in the lanes of `look draw`
    jdk/dump.py --try                      runs the programs in jdk/dumps on a JDK 25, takes a dump of each while it hangs,
                                           and compares what is printed with the lines at the end of its source

For each thread it prints whether it waits, in which call, and the Java line of the program. A dump doesn't show whether a
thread is interrupted, and not which of its scopes it joins: this is taken to be the innermost one.

Status 0: printed; 1: a program of --try prints something else; 2: DUMP is no such dump, or the words are mistaken;
3: no JDK 25 was found.
"""
import argparse
import collections
import json
import os
import re
import subprocess
import sys
import tempfile
import time
from xml.sax.saxutils import escape

HERE = os.path.dirname(os.path.realpath(__file__))
ROOT = os.path.dirname(HERE)
sys.path.insert(0, HERE)
LANE, COLUMN, LEFT, TOP, LETTER = 52, 48, 40, 72, 7  # pixels
OF_THE_JDK = re.compile(r"(?:[\w.]+(?:@[\w.+-]+)?/)?(?:java|javax|jdk|sun|com\.sun)\.")
FRAME = re.compile(r"(?:[\w.@+-]+/)*([\w.$]+)\.([\w$<>]+)\(([^()]*)\)")
# The container of a scope with a name, and of one without.
SCOPE = re.compile(r"(?:(.*)/)?(?:jdk\.internal\.misc\.ThreadFlock\$ThreadContainerImpl|java\.util\.concurrent\.StructuredTaskScopeImpl)@\w+")

Thread = collections.namedtuple("Thread", "number name waits call line scopes")
Scope = collections.namedtuple("Scope", "number name threads")


class Mistaken(Exception):
    """The dump can't be read."""


def frames(stack):
    """Yields each frame of a stack: its class, its method, and its place in a source."""
    for it in stack:
        found = FRAME.fullmatch(it)
        if found:
            yield it, found[1].rsplit(".", 1)[-1], found[2], found[3]


def at(stack):
    """Returns the call of the JDK that a thread is in, and the line of the program that called it."""
    call = ""
    for it, owner, method, place in frames(stack):
        if not OF_THE_JDK.match(it):
            return call, f"{place} in {method}" if not method.startswith("lambda$") else place
        call = f"{owner}.{method}"
    return call, ""


def call_words(call, innermost):
    """Returns what a thread that is in this call of the JDK waits for."""
    if call in ("StructuredTaskScopeImpl.join", "StructuredTaskScopeImpl.close") and innermost is not None:
        return f"at {call.rsplit('.', 1)[1]} of scope {innermost}"
    return f"in {call}" if call else ""


def read(path):
    """Returns the containers of a dump."""
    try:
        with open(path, encoding="utf-8") as file:
            containers = json.load(file)["threadDump"]["threadContainers"]
            return [(it["container"], it["parent"], it["owner"], it["threads"]) for it in containers]
    except OSError as error:
        raise Mistaken(f"cannot read {path}: {error.strerror}") from error
    except (ValueError, KeyError, TypeError) as error:
        raise Mistaken(f"{path} is no thread dump as JSON: jcmd PID Thread.dump_to_file -format=json FILE makes one") from error


class Dump:
    """The scopes and threads of a dump, as trees: `roots` are the threads that own scopes and run in none."""

    def __init__(self, containers):
        self.containers = [it for it in containers if SCOPE.fullmatch(it[0])]
        self.numbers = {it[0]: number for number, it in enumerate(self.containers)}
        self.raw = {thread["tid"]: thread for it in containers for thread in it[3]}
        inside = {thread["tid"] for it in self.containers for thread in it[3]}
        owners = [it[2] for it in self.containers if it[2] is not None]
        self.roots = [self.thread(tid) for tid in dict.fromkeys(owners) if tid not in inside]

    def owned(self, tid):
        """Returns the containers that a thread owns, the outermost first."""
        return [it for it in self.containers if it[2] == tid]

    def thread(self, tid):
        raw, owned = self.raw.get(tid, {"name": "", "stack": []}), self.owned(tid)
        call, line = at(raw["stack"])
        state = raw.get("state", "WAITING" if call else "RUNNABLE")
        outer = {it[1] for it in owned}
        innermost = next((self.numbers[it[0]] for it in reversed(owned) if it[0] not in outer), None)
        waits = state not in ("RUNNABLE", "NEW", "TERMINATED")
        return Thread(tid, raw["name"], waits, call_words(call, innermost) if waits else "", line, [self.scope(it) for it in owned])

    def scope(self, container):
        name = SCOPE.fullmatch(container[0])[1]
        return Scope(self.numbers[container[0]], name, [self.thread(it["tid"]) for it in container[3]])


def thread_words(thread):
    name = f" {thread.name}" if thread.name else ""
    return f"thread {thread.number}{name}"


def state_words(thread):
    state = " ".join(filter(None, ["waits" if thread.waits else "runs", thread.call]))
    return ", ".join(filter(None, [state, thread.line]))


def scope_words(scope):
    return " ".join(filter(None, [f"scope {scope.number}", scope.name]))


def lines(threads, depth=0):
    """Yields the lines of these threads, of their scopes, and of the threads in these."""
    for thread in threads:
        yield f"{'  ' * depth}{thread_words(thread)}: {state_words(thread)}"
        for scope in thread.scopes:
            empty = "" if scope.threads else ": no thread runs in it"
            yield f"{'  ' * (depth + 1)}{scope_words(scope)}{empty}"
            yield from lines(scope.threads, depth + 2)


class Picture:
    """The same in lanes: a lane for each thread, and below it the scopes that it owns."""

    def __init__(self, roots):
        self.marks, self.count, self.seen, self.wide = [], 0, set(), 480
        for root in roots:
            self.lane(root, 0, None)

    def mark(self, kind, path):
        self.seen.add(kind)
        self.marks.append(f"<path class='{kind}' d='{path}'/>")

    def text(self, kind, x, y, words):
        self.wide = max(self.wide, x + LETTER * len(words) + 12)
        self.marks.append(f"<text class='{kind}' x='{x}' y='{y}'>{escape(words)}</text>")

    def lane(self, thread, depth, owner):
        x, y = LEFT + COLUMN * depth, TOP + LANE * self.count
        self.count += 1
        if owner is not None:
            self.mark("fork", f"M{x} {owner}V{y}")
        self.mark("waits" if thread.waits else "ready", f"M{x} {y}h{COLUMN * 2}")
        self.text("key", x + COLUMN * 2 + 8, y + 4, f"{thread_words(thread)}: {state_words(thread)}")
        for place, scope in enumerate(thread.scopes):
            below = y + 14 + 9 * min(place, 2)
            self.mark("bracket", f"M{x + COLUMN} {below}h{COLUMN}")
            self.text("label", x + COLUMN * 2 + 8, below + 4, scope_words(scope))
            for it in scope.threads:
                self.lane(it, depth + 1, y)

    def svg(self, title):
        foot = TOP + LANE * self.count
        legend, x = [], LEFT
        for kind, words, path in (("ready", "runs", "h24"), ("waits", "waits", "h24"), ("fork", "forked", "m12-8v16"), ("bracket", "scope", "h24")):
            if kind in self.seen:
                legend += [f"<path class='{kind}' d='M{x} {foot}{path}'/>", f"<text class='key' x='{x + 32}' y='{foot + 4}'>{words}</text>"]
                x += 115
        high = foot + 28
        head = f"<svg xmlns='http://www.w3.org/2000/svg' class='sts-run' role='img' viewBox='0 0 {self.wide} {high}' width='{self.wide}' height='{high}'>"
        named = [f"<title>{escape(title)}</title>", style(), f"<text class='heading' x='12' y='22'>{escape(title)}</text>"]
        return "\n".join([head, *named, *self.marks, *legend, "</svg>", ""])


def style():
    """Returns the style of `look draw`, without its grid."""
    with open(f"{ROOT}/crates/look_drawing/src/style.rt", encoding="utf-8") as file:
        text = re.search(r'pub const STYLE: &str = "(.*?)";', file.read(), re.S)[1]
    text = re.sub(r"\\\n\s*", "", text).replace(r"\x20", " ").replace(r"\n", "\n")
    return re.sub(r"<defs>.*?</defs>\n", "", text, flags=re.S).strip()


# ---- programs that hang


def wanted(source):
    """Returns the lines at the end of a program, which say what is printed of its dump."""
    with open(source, encoding="utf-8") as file:
        return [it[4:].rstrip("\n") for it in file if it.startswith("//= ")]


def dump_of(home, java, folder, number):
    """Takes a dump of a process, and returns its lines."""
    path = f"{folder}/{java.pid}.{number}.json"
    subprocess.run([f"{home}/bin/jcmd", str(java.pid), "Thread.dump_to_file", "-format=json", path], check=True, capture_output=True)
    return [steady(it) for it in lines(Dump(read(path)).roots)]


def dumped(home, source, folder):
    """Runs a program until it says that it hangs, and returns the lines of a dump, once two seconds don't change them."""
    words = [f"{home}/bin/java", "--enable-preview", "--source", "25", source]
    with subprocess.Popen(words, stdout=subprocess.PIPE, stderr=subprocess.PIPE, text=True) as java:
        try:
            if java.stdout.readline() != "hangs\n":
                raise Mistaken(f"{source} ended: {java.stderr.read()}")
            before, now = None, []
            for number in range(20):
                if now and now == before:
                    break
                time.sleep(2)
                before, now = now, dump_of(home, java, folder, number)
            return now
        finally:
            java.kill()


def steady(line):
    """Returns a line without what differs from run to run: the numbers of threads."""
    return re.sub(r"thread \d+", "thread N", line)


def tried():
    """Compares the dumps of all programs with what they say. Returns the status."""
    from player import find_jdk

    home = find_jdk()
    if not home:
        print("no JDK 25 was found: set JAVA_HOME", file=sys.stderr)
        return 3
    sources = sorted(f"{HERE}/dumps/{it}" for it in os.listdir(f"{HERE}/dumps") if it.endswith(".java"))
    failed = 0
    with tempfile.TemporaryDirectory() as folder:
        for source in sources:
            printed = dumped(home, source, folder)
            if printed != wanted(source):
                failed += 1
                print(os.path.basename(source), *printed, sep="\n")
    print(f"{len(sources) - failed} passed, {failed} failed")
    return 1 if failed or not sources else 0


def main():
    parser = argparse.ArgumentParser(description=__doc__, formatter_class=argparse.RawDescriptionHelpFormatter)
    parser.add_argument("dump", nargs="?")
    parser.add_argument("--svg")
    parser.add_argument("--try", dest="tries", action="store_true")
    asked = parser.parse_args()
    if asked.tries == bool(asked.dump):
        parser.error("one of DUMP and --try")
    try:
        if asked.tries:
            return tried()
        roots = Dump(read(asked.dump)).roots
        print(*(list(lines(roots)) or ["no scope is open"]), sep="\n")
        if asked.svg:
            with open(asked.svg, "w", encoding="utf-8") as file:
                file.write(Picture(roots).svg(os.path.basename(asked.dump)))
    except Mistaken as error:
        print(f"dump.py: {error}", file=sys.stderr)
        return 2
    return 0


if __name__ == "__main__":
    sys.exit(main())
