"""Compares the program with itself, over generated programs and traces.  [options]

A mistake in one mode is found, since another mode says the same by other code:
- `replay` prints what `plain` prints if the program is accepted, and otherwise what `verify` prints;
- an accepted program never faults, and takes at most the steps of its budget;
- `run` prints what `verify` prints and then what `replay` prints of the journal that it wrote. The journal has a
  beginning of the outside events in their order;
- `list` prints a text of the same program: with the same verdict, the same run, and listed as itself.

Programs are drawn as texts of both profiles: whole ones, which are accepted for the most part, ones with a line
that was changed, and lines without order.  A case is drawn from the seed and its number alone, so it can be drawn
again.  A case that fails is left in a folder.  The last line is `N passed, M failed`, of cases.
"""
import argparse
import collections
import json
import os
import random
import sys
import tempfile
import time

from checks import programs
from checks.tally import Tally

SLOTS = 16
ACCEPTED, REFUSED, BAD_TEXT = 0, 4, 3
ENDED = (0, 1)
GIVES_COUNT = ("all", "until")


# ---- programs


class Function:
    """Draws the lines of a function; each block leaves operands, slots, loops and entries as it found them."""

    def __init__(self, draw, profile, index, lower):
        self.draw, self.profile, self.index, self.lower = draw, profile, index, lower
        self.args = 0 if index is None else draw.randrange(3)
        self.lines, self.labels, self.size = [], 0, 0
        self.loops, self.entries = 0, 0
        self.busy = set() if index is None else {0}
        self.bound, self.needs, self.scopes = [], set(), []

    def add(self, *lines):
        self.lines.extend(lines)
        self.size += len(lines)

    def label(self):
        self.labels += 1
        return f"l{self.labels}"

    def slot(self):
        """Takes a slot that is free, if there is one."""
        free = [x for x in range(SLOTS) if x not in self.busy]
        if not free:
            return None
        slot = self.draw.choice(free)
        self.busy.add(slot)
        return slot

    def number(self):
        return self.draw.choice([0, 1, 2, 3, -1, 7, 10, 2**63 - 1, -(2**63), self.draw.randrange(-99, 100)])

    def blocks(self, depth):
        kinds = [self.local, self.divide, self.flag]
        if depth > 0:
            kinds += [self.branch, self.loop, self.scope, self.scope, self.scope, self.binding]
        for _ in range(self.draw.randrange(1, 4)):
            if self.size < 300:
                self.draw.choice(kinds)(depth - 1)

    def local(self, _):
        operation = self.draw.choice(["add", "sub", "mul", "lt", "eq", "swap\n  pop"])
        source = self.draw.choice([f"push {self.number()}", f"load {self.draw.randrange(16)}"])
        self.add(source, f"push {self.number()}", operation, f"store {self.draw.randrange(16)}")

    def divide(self, _):
        zero, on = self.label(), self.label()
        self.add(f"load {self.draw.randrange(16)}", f"push {self.number()}", f"div {zero}", "pop", f"jmp {on}", f"{zero}:", "push 5", "store 3", f"{on}:")

    def flag(self, _):
        self.add(self.draw.choice(["interrupted", "interrupted"] + ([] if self.index is None else ["cancelled s0"])), f"store {self.draw.randrange(16)}")

    def branch(self, depth):
        over = self.label()
        self.add(f"load {self.draw.randrange(16)}", f"jz {over}")
        self.blocks(depth)
        self.add(f"{over}:")

    def loop(self, depth):
        if self.loops == 8:
            return
        self.loops += 1
        self.add(f"push {self.draw.randrange(-1, 6)}", f"times {self.draw.randrange(1, 5)}")
        self.blocks(min(depth, 1))
        self.add("next")
        self.loops -= 1

    def binding(self, depth):
        if self.entries == 16:
            return
        key = self.draw.randrange(6)
        self.entries += 1
        self.bound.append(key)
        self.add(f"push {self.number()}", f"bind {key}")
        self.blocks(depth)
        self.add(f"read {self.draw.choice(self.bound)}", "pop", f"bound {self.draw.randrange(16)}", "pop", "push 4", f"orelse {self.draw.randrange(16)}", "pop")
        self.bound.pop()
        self.entries -= 1
        self.add("unbind")

    def scope(self, depth):
        slot = self.slot()
        if slot is None or self.entries == 16 or not self.lower:
            self.busy.discard(slot)
            return
        self.entries += 1
        joiner = self.draw.choice(["all", "any", "awaitok", "awaitall", "until failed 2", "until success 1", "until atleast 3"])
        timed = self.draw.random() < 0.4
        self.add(f"open s{slot} {joiner}{' timed' if timed else ''}")
        if self.draw.random() < 0.2:
            self.blocks(min(depth, 1))
        handles = [self.fork(slot) for _ in range(self.draw.randrange(4))]
        self.outcomes(slot, joiner, timed, [x for x in handles if x is not None], depth)
        self.busy -= {slot} | set(handles)
        self.entries -= 1

    def fork(self, scope):
        """Forks a lower function with bound needs. Answers the slot of its handle, if it has one."""
        fit = [f for f in self.lower if f.needs <= set(self.bound) | self.needs]
        if not fit:
            return None
        child = self.draw.choice(fit)
        handle = self.slot() if self.draw.random() < 0.7 else None
        self.add(*(f"push {self.number()}" for _ in range(child.args)))
        self.add(f"fork s{scope} {child.name()} {'_' if handle is None else f's{handle}'}")
        return handle

    def outcomes(self, slot, joiner, timed, handles, depth):
        """One `join`, or another after an interrupt, and what is done at each outcome; every way closes the scope."""
        on = self.label()
        for _ in range(self.draw.choice([1, 1, 2])):
            interrupted = self.label()
            self.joined(slot, joiner, timed, handles, depth, interrupted, on)
            self.add(f"{interrupted}:")
        self.add(f"close s{slot}", f"{on}:")

    def joined(self, slot, joiner, timed, handles, depth, interrupted, on):
        """A `join` with all of its outcomes but the last."""
        can_fail = joiner in ("all", "any", "awaitok")
        failed, late = self.label(), self.label()
        self.add(f"join s{slot} {failed if can_fail else '-'} {late if timed else '-'} {interrupted}")
        if joiner == "any" or joiner.startswith(GIVES_COUNT):
            self.add(f"store {self.draw.randrange(16)}")
        self.read(slot, joiner, handles)
        if self.draw.random() < 0.3:
            self.blocks(min(depth, 1))
        self.add(f"close s{slot}", f"jmp {on}")
        if can_fail:
            self.add(f"{failed}:", "store 1", f"close s{slot}", f"jmp {on}")
        if timed:
            read = [f"total s{slot}", "store 2"] if self.profile == 2 else []
            self.add(f"{late}:", *read, f"close s{slot}", f"jmp {on}")

    def read(self, slot, joiner, handles):
        for handle in handles:
            if joiner in ("all", "awaitok"):
                self.add(f"get s{handle}", f"store {self.draw.randrange(16)}")
            elif self.draw.random() < 0.7:
                self.case(handle)
        if self.draw.random() < 0.5:
            self.add(f"tally s{slot} {self.draw.choice('SFU')}", f"total s{slot}", "add", f"store {self.draw.randrange(16)}")

    def case(self, handle):
        good, bad, on = (self.label() for _ in range(3))
        forget = f"forget s{handle}"
        self.add(f"case s{handle} {good} {bad}", forget, f"jmp {on}", f"{good}:", f"get s{handle}", "pop", forget, f"jmp {on}")
        self.add(f"{bad}:", f"except s{handle}", "pop", forget, f"{on}:")

    def name(self):
        return "main" if self.index is None else f"f{self.index}"

    def text(self, depth):
        if self.index is not None and self.draw.random() < 0.3:
            self.needs = {self.draw.randrange(6)}
        self.blocks(depth)
        end = "fail" if self.draw.random() < 0.2 else "ret"
        self.add(f"load {self.draw.randrange(16)}", end)
        needs = " needs " + " ".join(map(str, sorted(self.needs))) if self.needs else ""
        body = "".join(f"{'' if it.endswith(':') else '  '}{it}\n" for it in self.lines)
        return f"func {self.name()} {self.args}{needs}\n{body}end\n"


def whole(draw):
    """A program that means something: each function forks those before it."""
    profile = draw.choice([1, 1, 2])
    lower, text = [], "profile 2\n" if profile == 2 else ""
    for index in [*range(draw.randrange(1, 4)), None]:
        function = Function(draw, profile, index, list(lower))
        text += function.text(draw.randrange(1, 4) if index is None else draw.randrange(3))
        lower.append(function)
    return text


def broken(draw):
    """A whole program with one to three lines left out, doubled, exchanged or put elsewhere."""
    lines = whole(draw).split("\n")[:-1]
    for _ in range(draw.randrange(1, 4)):
        at, to = draw.randrange(len(lines)), draw.randrange(len(lines))
        kind = draw.randrange(4)
        if kind == 0 and len(lines) > 1:
            del lines[at]
        elif kind == 1:
            lines.insert(to, lines[at])
        else:
            lines[at], lines[to] = lines[to], lines[at]
    return "\n".join(lines) + "\n"


def soup(draw):
    """Instructions of whole programs without order, in one function."""
    lines = [it for it in whole(draw).split("\n") if it.startswith("  ")]
    draw.shuffle(lines)
    kept = lines[: draw.randrange(1, 30)]
    labels = {word for it in kept for word in it.split()[1:] if word.startswith("l") and word[1:2].isdigit()}
    kept += [f"{it}:" for it in sorted(labels)]
    return "func f0 0\n  push 1\n  ret\nend\nfunc f1 0\n  push 1\n  fail\nend\nfunc f2 0\n  push 2\n  ret\nend\nfunc main 0\n" + "\n".join(kept) + "\n  push 0\n  ret\nend\n"


# ---- traces


def one_event(draw, tasks):
    what = draw.random()
    if what < 0.03:
        return f"interrupt {draw.randrange(tasks + 1)}"
    if what < 0.06:
        return f"expire {draw.randrange(tasks)}"
    return f"step {draw.randrange(tasks)}"


def trace(draw):
    """Steps of a few tasks, in turns of one task or mixed, with interrupts and expiries between; and then of all."""
    tasks, events = draw.choice([1, 2, 4, 8, 30]), []
    for _ in range(draw.randrange(60)):
        events += [one_event(draw, tasks)] * draw.choice([1, 1, 2, 5])
    if draw.random() < 0.8:
        events += [f"step {task}" for _ in range(draw.choice([20, 150])) for task in range(tasks)]
    return "".join(f"{it}\n" for it in events)


def outside(draw):
    """Interrupts and expiries, each due at a length of the journal."""
    lines = []
    for _ in range(draw.choice([0, 0, 1, 3, 20])):
        at, kind = draw.choice([0, 1, 2, 5, 10, 40, 200]), draw.choice(["interrupt", "interrupt", "expire"])
        lines.append(f"at {at} {kind} {draw.randrange(4)}\n")
    return "".join(lines)


# ---- comparisons


Said = collections.namedtuple("Said", "status text")


class Program:
    """The program, over a text and a trace in a folder."""

    def __init__(self, path, folder):
        self.path, self.folder = path, folder

    def put(self, name, content):
        """The path of a file of this name with this content."""
        return programs.kept(self.folder, name, content)

    def answers(self, *words):
        return Said(*programs.says(self.path, *words))

    def says(self, mode, text, events=None):
        traced = [] if events is None else [self.put("trace", events)]
        return self.answers(mode, self.put("text", text), *traced)

    def runs(self, text, workers, due):
        """The output of `run`, and its journal."""
        journal = self.put("journal", "")
        said = self.answers("run", self.put("text", text), "--workers", str(workers), "--outside", self.put("outside", due), "--trace", journal)
        with open(journal) as file:
            return said, file.read()


def steps_of(said):
    return int(said.text.split("steps ")[1])


def budget_of(verdict):
    return int(verdict.text.split("main steps ")[1].split("\n")[0])


def misrun(program, text, workers, due, verdict):
    """Yields what is wrong with a run by workers."""
    said, journal = program.runs(text, workers, due)
    if verdict.status != ACCEPTED:
        if (said, journal) != (verdict, ""):
            yield f"run of what isn't accepted says {said}, wanted {verdict}, and wrote {len(journal)} bytes"
        return
    replayed = program.says("replay", text, journal)
    if said != Said(replayed.status, verdict.text + replayed.text) or said.status not in ENDED:
        yield f"run by {workers} says {said}, its journal {replayed}"
        return
    came = [line for line in journal.splitlines() if not line.startswith("step ")]
    given = [line.split(" ", 2)[2] for line in due.splitlines()]
    if came != given[: len(came)]:
        yield f"run by {workers} recorded {came} of {given}"
    if steps_of(replayed) > budget_of(verdict) or len(journal.splitlines()) - len(came) > budget_of(verdict):
        yield f"run by {workers} took more steps than the budget: {said}, {verdict}"


def differences(program, text, events, workers, due):
    """Yields what is wrong with the case, and first the verdict's status."""
    verdict, plain = program.says("verify", text), program.says("plain", text, events)
    replay = program.says("replay", text, events)
    yield verdict.status
    want = plain if verdict.status == ACCEPTED else verdict
    if replay != want:
        yield f"replay says {replay}, wanted {want}"
    if verdict.status == ACCEPTED and plain.text.startswith("fault"):
        yield f"an accepted program comes to a fault: {plain}"
    if verdict.status == ACCEPTED and steps_of(plain) > budget_of(verdict):
        yield f"more steps than the budget: {plain}, {verdict}"
    yield from misrun(program, text, workers, due, verdict)
    listed = program.says("list", text)
    if verdict.status == BAD_TEXT:
        if not listed == plain == verdict:
            yield f"a fault of the text is told otherwise: {listed}, {plain}, {verdict}"
        return
    if program.says("list", listed.text) != listed:
        yield "a listing isn't listed as itself"
    if program.says("plain", listed.text, events) != plain:
        yield "a listing runs otherwise"
    if program.says("verify", listed.text).status != verdict.status:
        yield "a listing has another verdict"


def drawn(seed, number):
    """The text and the trace of a case, how many workers run it, and what comes from outside."""
    draw = random.Random(f"{seed} {number}")
    text = draw.choice([whole, whole, whole, broken, soup])(draw)
    return text, trace(draw), draw.choice([1, 2, 3, 8, 16]), outside(draw)


def keep(folder, number, case, said):
    os.makedirs(folder, exist_ok=True)
    text, events, workers, due = case
    for name, content in (("sts", text), ("trace", events), ("outside", due), ("said", f"{workers} workers\n" + "\n".join(said) + "\n")):
        with open(os.path.join(folder, f"{number}.{name}"), "w") as file:
            file.write(content)


def compare(program, seed, numbers, folder, until):
    """Returns how many cases had each verdict, and how many failed."""
    verdicts, failed = collections.Counter(), 0
    for number in numbers:
        if time.time() > until:
            break
        case = drawn(seed, number)
        status, *said = differences(program, *case)
        verdicts[status] += 1
        if said:
            failed += 1
            keep(folder, number, case, said)
            print(f"case {number}: {said[0]}", file=sys.stderr)
    return verdicts, failed


def write(seed, numbers):
    """Prints the cases as lines of JSON, in the form of docs/IMPLEMENTERS.md; nothing is expected of them."""
    for number in numbers:
        text, events, *_ = drawn(seed, number)
        print(json.dumps({"name": f"seed {seed} case {number}", "text": text, "trace": events}))


def main():
    reads = argparse.ArgumentParser(description="Compares the program with itself, over generated programs and traces.")
    reads.add_argument("--program", help="the program (crates/sts/out/sts)")
    reads.add_argument("--unproved", action="store_true", help="takes the program without proofs, and builds it if need be")
    reads.add_argument("--seed", type=int, default=1, help="what the cases are drawn from (1)")
    reads.add_argument("--cases", type=int, default=1000, help="how many cases (1000)")
    reads.add_argument("--first", type=int, default=0, help="the number of the first case (0)")
    reads.add_argument("--seconds", type=int, default=600, help="the time after which no case is begun (600)")
    reads.add_argument("--failed", default="differ_failed", help="the folder for cases that fail (differ_failed)")
    reads.add_argument("--write", type=int, metavar="N", help="print N cases as lines of JSON, and compare nothing")
    asked = reads.parse_args()
    if asked.write is not None:
        write(asked.seed, range(asked.first, asked.first + asked.write))
        return 0
    [asked.program], _ = programs.taken(programs.words_of(asked), "sts")
    numbers = range(asked.first, asked.first + asked.cases)
    with tempfile.TemporaryDirectory() as folder:
        verdicts, failed = compare(Program(asked.program, folder), asked.seed, numbers, asked.failed, time.time() + asked.seconds)
    told = {ACCEPTED: "accepted", REFUSED: "refused", BAD_TEXT: "faults of texts"}
    print(", ".join(f"{count} {told.get(status, status)}" for status, count in sorted(verdicts.items())))
    tally = Tally()
    tally.passed, tally.failed = sum(verdicts.values()) - failed, failed
    return tally.end()
