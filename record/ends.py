"""Finds how the ends of a task come about: by a value that it passes on, by several in one number, by a count, or by itself."""
import collections
from dataclasses import dataclass

import values as numbers
from outcomes import ASKS

MOST_PARTS = 4
FAILING = ("all", "any", "awaitok")
BLANK = {"ret": 1, "fail": 2}  # the value of an end that nothing depends on


@dataclass(frozen=True)
class End:
    way: str  # ret or fail
    kind: str  # source, parts, counted or value
    nodes: tuple = ()
    number: int = 0


class Wants:
    """Which values of a subtask something may depend on."""

    def __init__(self, values=True, codes=True):
        self.ret, self.fail = values, codes

    def any(self):
        return self.ret or self.fail


class Ends:
    def __init__(self, texts, joined, wants):
        self.texts, self.joined, self.own = texts, joined, wants
        self.is_root = joined.parent is None
        self.asked, self.read, self.forks = set(), set(), collections.Counter()
        self.taken, self.counting, self.found = set(), set(), {}

    def study(self, tree, function):
        """Reads the tree of the task: first what it asks for, then the functions of its subtasks, then its ends."""
        forked = []
        for node in walk(tree):
            if node.kind in ASKS and node.subtask is not None and any(op.way is None for _, _, op in node.members):
                self.asked.add(node.subtask)
                if node.kind != "state":
                    self.read.add(node.subtask)
            if node.kind == "fork" and node.subtask is not None:
                forked.append(node.subtask)
                self.forks[node.subtask] += 1
        self.composite = {it for it in dict.fromkeys(forked) if function(it).is_composite}
        self.leaves(tree)

    def wants(self, subtask):
        scope = subtask.parent.one() if subtask.parent else None
        if not self.texts.is_blank(subtask):
            return Wants()
        joiner = scope.joiner if scope else ""
        return Wants(subtask in self.read or joiner == "any", subtask in self.read or joiner in FAILING)

    def of(self, node):
        return self.found[node]

    def leaves(self, tree):
        """Finds the ends of each leaf, with the values and the joins on the way to it."""
        work = [(tree, None)]
        while work:
            node, path = work.pop()
            if node is None:
                continue
            if node.kind in ("end", "cut"):
                self.found[node] = self.at_leaf(node, list(unlinked(path)))
            for outcome, after in node.next.items():
                work.append((after, ((node, outcome), path) if self.gives(node, outcome) else path))

    @staticmethod
    def gives(node, outcome):
        """May an end depend on what this operation gave?"""
        return node.kind == "join" and outcome != "fault" or node.kind in ("get", "read") and outcome is None

    def at_leaf(self, node, path):
        by_member = [(member, self.end(member, node, path)) for member in node.members]
        for (recording, task, op), end in by_member:
            self.texts.expected[task] = self.expected(recording, task, op, end)
            if self.is_root:
                self.texts.root_ways[recording] = end.way
        ends = [end for end, _ in collections.Counter(end for _, end in by_member).most_common()]  # a random schedule takes the first one most often
        for end in ends:
            if end.kind in ("source", "parts"):
                self.taken.update((it, self.outcome(it, path)) for it in end.nodes)
            if end.kind == "counted":
                self.counting.add(end.nodes[0])
        return ends

    def expected(self, recording, task, op, end):
        """Returns the number with which a replay has to end the task."""
        if end.kind == "parts":
            number = 0
            for node in end.nodes:
                got = next(it for of, by, it in node.members if of is recording and by is task)
                number = number * numbers.PART + self.values(recording, got.value)
            return number
        if end.kind == "counted":
            join = end.nodes[0]
            scope = next(it for of, _, it in join.members if of is recording).scope
            return (numbers.IN_TIME if end.way == "ret" else numbers.LATE) + sum(it.told and it.end().way == "ret" for it in scope.subtasks)
        return self.values(recording, op.value) if end.kind == "source" else end.number

    @staticmethod
    def outcome(node, path):
        return next(("failed" if outcome == "failed" else "ok") for it, outcome in path if it is node)

    def end(self, member, node, path):
        """Returns the end of one member of a leaf."""
        recording, task, op = member
        joins = [(it, outcome) for it, outcome in path if it.kind == "join"]
        if self.is_root:
            return self.end_of_root(recording, op, joins, path)
        source = None if node.kind == "cut" else self.source(recording, task, op, path)
        if source is not None:
            return End(op.way, "source", (source,))
        parts = self.parts(path) if op.way == "ret" and getattr(self.own, op.way) else ()
        if parts:
            return End("ret", "parts", parts)
        return End(op.way, "value", (), self.values(recording, op.value) if getattr(self.own, op.way) else BLANK[op.way])

    def values(self, recording, value):
        return self.texts.values.number(recording, value)

    def end_of_root(self, recording, op, joins, path):
        if not joins:
            return End(op.way, "value", (), 0)
        join, way = joins[-1]
        joiner = join.scope.one().joiner if join.scope else ""
        if joiner == "any" and way == "ok" or joiner in FAILING and way == "failed":
            return End(op.way, "source", (join,))
        parts = self.parts(path) if way == "ok" else ()
        if parts:
            return End("ret", "parts", parts)
        if join.scope and (joiner == "awaitall" or join.scope.one().is_until()) and join.scope.forks_most() and way in ("ok", "timeout", "failed"):
            return End("ret" if way != "timeout" else "fail", "counted", (join,))
        if way in ("timeout", "interrupted"):
            what = "TimeoutException" if way == "timeout" else "InterruptedException"
            return End("fail", "value", (), self.texts.values.fresh(numbers.THROWN, f"{what} of join at {join.site().line}"))
        return End("ret", "value", (), self.result(join))

    def result(self, join):
        """Returns the number of a result of a join that has no value of its own."""
        guess = numbers.GUESS if join.scope and self.texts.is_guess(join.scope) else ""
        return self.texts.values.fresh(numbers.PLAIN, f"result of join at {join.site().line}{guess}")

    def parts(self, path):
        gets = [it for it, _ in path if it.kind == "get" and it.op().way is None and it.subtask is not None]
        fits = 1 <= len(gets) <= MOST_PARTS and not any(it.subtask in self.composite or self.forks[it.subtask] > 1 for it in gets)
        return tuple(gets) if fits else ()

    def source(self, recording, task, op, path):
        """Returns the last operation on the way that gave the very value with which the task ends."""
        if not op.value:
            return None
        for node, outcome in reversed(path):
            mine = next((it for of, by, it in node.members if of is recording and by is task), None)
            if mine is None or mine.value != op.value or mine.way in ("late", "other"):
                continue
            joiner = node.scope.one().joiner if node.kind == "join" and node.scope else ""
            if node.kind == "join" and (op.way == "ret" and outcome == "ok" and joiner == "any"
                                        or op.way == "fail" and outcome == "failed" and joiner in FAILING):
                return node
            if op.way == "ret" and node.kind == "get" and self.forks[node.subtask] <= 1:
                return node
            if op.way == "ret" and node.kind == "read":
                return node
        return None


def unlinked(path):
    """Returns a linked list in the order in which it was made."""
    items = []
    while path is not None:
        item, path = path
        items.append(item)
    return reversed(items)


def walk(tree):
    work = [tree]
    while work:
        node = work.pop()
        if node is not None:
            yield node
            work += node.next.values()
