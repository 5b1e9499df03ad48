"""Compares what `look explain` says weighs most with sums over generated programs.  [options]

A program is drawn as a tree of stretches, branches, loops, scopes, bindings and forks. The sums of a function
are made over its tree, with no table over places: a branch has the sum of its heavier way, a loop that of all its turns.
`look explain` has to say:
- `accepted`, if all four sums of `main` are within the limits, and lines on what JDK 25 does differently;
- otherwise the first sum over its limit, at a line that has the words that are printed. For steps it is the last `ret`;
- and with it at most 50 lines of the text. If no line is left out, they add up to the sum. Nothing is printed about a sum
  of more than 128 bits.
A program is drawn from the seed and its number alone, so it can be drawn again. One that fails is left in a folder.
The last line is `N passed, M failed`, of programs.
"""
import argparse
import os
import random
import re
from dataclasses import dataclass

from checks import programs
from checks.tally import Tally

RELIES = re.compile(r"JDK 25 throws \w+ at [^:]+: in \w+, line (\d+): (.*)")
LIMITS = {"steps": 1_000_000, "tasks": 65_536, "scopes": 65_536, "binds": 65_536}
PEAKS = ("tasks", "scopes", "binds")
CAUSES = {
    "steps": ("V17", "steps on a path that ends here"),
    "tasks": ("V18", "tasks count here"),
    "scopes": ("V19", "scopes are open here"),
    "binds": ("V20", "bindings are open here"),
}
OWN = {"steps": "adds 1, its last step", "tasks": "adds 1, the task itself"}
TURNS = (1, 2, 3, 10, 100, 1_000, 10_000)


@dataclass
class Piece:
    """A piece of a function: its lines and the steps of its heaviest way. For each peak it has the most that counts at once,
    and how much still counts after it, in the scope around."""

    lines: list
    steps: int
    peaks: dict
    left: dict

    @staticmethod
    def plain(lines, steps):
        return Piece(lines, steps, dict.fromkeys(PEAKS, 0), dict.fromkeys(PEAKS, 0))


@dataclass
class Function:
    """A function of a program: its lines, and what it weighs."""

    name: str
    lines: list
    weighs: dict


def stretch(count):
    return Piece.plain(["push 1", "pop"] * count, 2 * count)


def in_turn(pieces):
    whole = Piece.plain([], 0)
    for piece in pieces:
        whole.lines += piece.lines
        whole.steps += piece.steps
        for it in PEAKS:
            whole.peaks[it] = max(whole.peaks[it], whole.left[it] + piece.peaks[it])
            whole.left[it] += piece.left[it]
    return whole


def branch(one, other, label):
    lines = ["push 0", f"jz a{label}", *one.lines, f"jmp b{label}", f"a{label}:", *other.lines, f"b{label}:"]
    most = lambda a, b: {it: max(a[it], b[it]) for it in PEAKS}
    return Piece(lines, 2 + max(one.steps + 1, other.steps), most(one.peaks, other.peaks), most(one.left, other.left))


def loop(turns, body):
    lines = [f"push {turns}", f"times {turns}", *body.lines, "next"]
    peaks = {it: (turns - 1) * body.left[it] + body.peaks[it] for it in PEAKS}
    return Piece(lines, 2 + turns * (body.steps + 1), peaks, {it: turns * body.left[it] for it in PEAKS})


def scope(slot, body, label):
    ends = [f"join s{slot} - - a{label}", f"close s{slot}", f"jmp b{label}", f"a{label}:", f"close s{slot}", f"b{label}:"]
    peaks = {it: body.peaks[it] + (it == "scopes") for it in PEAKS}
    return Piece([f"open s{slot} awaitall", *body.lines, *ends], 1 + body.steps + 4, peaks, dict.fromkeys(PEAKS, 0))


def binding(key, body):
    peaks = {it: body.peaks[it] + (it == "binds") for it in PEAKS}
    lines = ["push 5", f"bind {key}", *body.lines, "unbind"]
    return Piece(lines, 3 + body.steps, peaks, dict.fromkeys(PEAKS, 0))


def fork(slot, child):
    stands = {it: child.weighs[it] for it in PEAKS}
    return Piece([f"fork s{slot} {child.name} _"], 1 + child.weighs["steps"], stands, dict(stands))


def function(name, body):
    weighs = {"steps": body.steps + 2, **body.peaks}
    weighs["tasks"] += 1
    return Function(name, [f"func {name} 0", *body.lines, "push 0", "ret", "end"], weighs)


class Drawing:
    """One program, drawn from a source of chances."""

    def __init__(self, chance):
        self.chance = chance
        self.labels = 0
        self.functions = []

    def label(self):
        self.labels += 1
        return self.labels

    def body(self, size, scopes=0, entries=0, loops=0, slot=None):
        """Draws a piece, inside these numbers of scopes, entries and loops. It may fork if a slot's scope is the last entry."""
        return in_turn([self.piece(size - 1, scopes, entries, loops, slot) for _ in range(self.chance.randint(1, 3))])

    def piece(self, size, scopes, entries, loops, slot):
        kinds = ["stretch", "fork"]
        if size > 0:
            kinds += ["branch", "loop", "loop"] + ["scope", "binding"] * (entries < 15)
        kind = self.chance.choice(kinds)
        if kind == "fork" and slot is not None and self.functions:
            return fork(slot, self.chance.choice(self.functions))
        if kind == "branch":
            ways = [self.body(size, scopes, entries, loops, slot) for _ in range(2)]
            return branch(*ways, self.label())
        if kind == "loop" and loops < 8:
            return loop(self.chance.choice(TURNS), self.body(size, scopes, entries, loops + 1, slot))
        if kind == "scope" and scopes < 15:
            return scope(scopes + 1, self.body(size, scopes + 1, entries + 1, loops, scopes + 1), self.label())
        if kind == "binding":
            return binding(self.chance.randint(0, 15), self.body(size, scopes, entries + 1, loops, None))
        return stretch(self.chance.randint(1, 3))

    def crowd(self):
        """Draws a scope with forks under two loops. There are enough of them that a peak is near its limit and the steps are within theirs."""
        child = self.chance.choice(self.functions)
        most = max(child.weighs[it] for it in PEAKS)
        forks = min(70_000 // most, 950_000 // (child.weighs["steps"] + 2)) + self.chance.randint(-3, 3)
        inner = self.chance.choice((1, 2, 10, 100))
        turns = max(1, min(10_000, forks // inner))
        inside = loop(turns, in_turn([loop(inner, fork(1, child)), *[stretch(1)] * self.chance.randint(0, 1)]))
        held = scope(1, in_turn([inside, self.body(1, 1, 1, 0, 1)]), self.label())
        return self.chance.choice((held, binding(3, held), in_turn([scope(1, stretch(1), self.label()), held])))

    def children(self):
        """Draws accepted functions. Each may fork those before it."""
        for number in range(self.chance.randint(1, 4)):
            drawn = function(f"child{number}", self.tower() if self.chance.random() < 0.4 else self.body(2))
            if all(drawn.weighs[it] <= LIMITS[it] for it in LIMITS):
                self.functions.append(drawn)

    def tower(self):
        """Draws some nested scopes, bindings or forks."""
        inner = stretch(1)
        count = self.chance.randint(2, 12)
        kind = self.chance.choice(PEAKS)
        if kind == "tasks" and self.functions:
            return scope(1, in_turn([fork(1, self.functions[0])] * count), self.label())
        for at in reversed(range(count)):
            inner = binding(at, inner) if kind == "binds" else scope(at + 1, inner, self.label())
        return inner

    def nest(self):
        """Draws nested loops of 10,000 turns, with forks in the innermost one."""
        child = self.chance.choice(self.functions)
        inner = in_turn([fork(1, child)] * self.chance.randint(1, 5))
        for _ in range(self.chance.randint(4, 8)):
            inner = loop(10_000, inner)
        return scope(1, inner, self.label())

    def program(self):
        """Draws functions and a main of no more instructions than there may be."""
        self.children()
        drawn = self.chance.random()
        if self.functions and drawn < 0.5:
            return [*self.functions, function("main", self.crowd())]
        if self.functions and drawn < 0.55:
            return [*self.functions, function("main", self.nest())]
        main = function("main", self.body(self.chance.randint(2, 7)))
        return [*self.functions, main] if len(main.lines) < 4000 else self.program()


def words_at(text, number):
    return " ".join(text[number - 1].split())


def told(text, line):
    """Returns the number that begins a line and the words between, if the rest is a line of the text; otherwise none."""
    found = re.fullmatch(r"(?:adds )?(\d+)(.*), line (\d+): (.*)", line)
    if not found or words_at(text, int(found[3])) != found[4]:
        return None
    return int(found[1]), found[2].strip(), int(found[3])


def names_a_line(text, line):
    """Says whether a line names an instruction of the text that relies on a rule which JDK 25 doesn't share."""
    found = RELIES.fullmatch(line)
    return found is not None and words_at(text, int(found[1])) == found[2]


def is_right(functions, text, status, printed):
    """Says whether this is what has to be printed of a program."""
    main = functions[-1].weighs
    over = [it for it in LIMITS if main[it] > LIMITS[it]]
    if not over:
        return status == 0 and printed[:1] == ["accepted"] and all(names_a_line(text, it) for it in printed[1:])
    cause, words = CAUSES[over[0]]
    if status != 4 or printed[0] != f"refused {cause} in main, at its end":
        return False
    if main[over[0]] >= 1 << 128:
        return len(printed) == 2
    top = told(text, printed[2])
    if top is None or top[:2] != (main[over[0]], words):
        return False
    if over[0] == "steps" and top[2] != len(text) - 1:
        return False
    return adds_up(text, printed[3:], top[0], OWN.get(over[0]))


def adds_up(text, lines, weight, own):
    """Says whether these lines are of the text, and add up to the weight if no line is left out."""
    if own is not None and lines[-1:] != [own]:
        return False
    lines = lines[: len(lines) - (own is not None)]
    left_out = lines and lines[-1].startswith("other lines that add something, none of them more: ")
    added = [told(text, it) for it in lines[: len(lines) - bool(left_out)]]
    if None in added or len(added) > 50 or (left_out and len(added) != 50):
        return False
    whole = sum(it[0] for it in added) + (own is not None)
    return whole < weight if left_out else whole == weight


def main():
    reads = argparse.ArgumentParser(description=__doc__, formatter_class=argparse.RawDescriptionHelpFormatter)
    reads.add_argument("--program", help="the program (crates/look/out/look)")
    reads.add_argument("--unproved", action="store_true", help="takes the program without proofs, and builds it if need be")
    reads.add_argument("--seed", type=int, default=1, help="what the programs are drawn from (1)")
    reads.add_argument("--cases", type=int, default=1000, help="how many programs (1000)")
    reads.add_argument("--first", type=int, default=0, help="the number of the first one (0)")
    reads.add_argument("--failed", default="heaviest_failed", help="the folder for programs that fail (heaviest_failed)")
    asked = reads.parse_args()
    [asked.program], _ = programs.taken(programs.words_of(asked), "look")
    tally = Tally()
    for number in range(asked.first, asked.first + asked.cases):
        functions = Drawing(random.Random(f"{asked.seed} {number}")).program()
        text = [line for it in functions for line in it.lines]
        status, printed = programs.says(asked.program, "explain", "/dev/stdin", given="\n".join(text) + "\n", seconds=60)
        right = is_right(functions, text, status, printed.split("\n")[:-1])
        tally.holds(f"program {number} of seed {asked.seed}", right, f"{functions[-1].weighs}: {printed[:300]!r}")
        if not right:
            os.makedirs(asked.failed, exist_ok=True)
            open(f"{asked.failed}/{asked.seed}_{number}.sts", "w").write("\n".join(text) + "\n")
    return tally.end()
