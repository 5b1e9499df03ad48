"""Writes the functions of a text: one for each tree of a task (outcomes.py). Equal ones are one function.

What wasn't recorded becomes a way of its own, whose end has a name that says so.
"""
from typing import NamedTuple

import values as numbers
from ends import Ends
from joins import Joins
from leaves import Leaves
from questions import Questions
from scopes import Opens
from states import MOST_INSTRUCTIONS, Full, State
from unrecorded import Unrecorded


class Function(NamedTuple):
    name: str
    pushes: tuple  # the values that a fork gives it
    needs: frozenset
    is_composite: bool  # may its value be several in one number?
    is_guess: bool  # may it end in a way that wasn't recorded?


class Code(Unrecorded, Opens, Joins, Questions, Leaves):
    """Writes the code of one task."""

    def __init__(self, texts, joined, wants):
        self.texts, self.joined, self.values = texts, joined, texts.values
        self.is_root = joined.parent is None
        self.ends = Ends(texts, joined, wants)
        self.lines, self.stubs, self.work = [], [], []
        self.labels = self.count = self.executed = 0
        self.needs, self.outer = set(), {}
        self.args, self.is_guess = [], False

    # ---- lines

    def line(self, words, name=None, to=None):
        to = self.lines if to is None else to
        to.append(f"  {words}  ;= {name}" if name else f"  {words}")
        self.count += 1
        if self.count > MOST_INSTRUCTIONS:
            raise Full("instructions", f"a task has more than {MOST_INSTRUCTIONS} instructions")

    def say(self, words, site=None):
        """Writes an instruction that the recorded task did."""
        self.line(words, site.line if site else None)
        self.executed += 1

    def remark(self, site, what):
        self.lines.append(f"  ; {site.line} {numbers.ascii(what)}")
        self.texts.left_out(f"{what.split(' ')[0]} at {site.line}")

    def label(self, prefix):
        self.labels += 1
        return f"{prefix}{self.labels}"

    def write(self):
        tree = self.joined.tree
        self.ends.study(tree, self.wanted_function)
        state = State(self.is_root)
        self.work = [(None, None, tree, state, ())]
        while self.work:
            before, label, node, state, prefix = self.work.pop()
            if label:
                self.lines.append(f"{label}:")
            for words in prefix:
                self.say(words)
                self.texts.steps(before, 1)
            self.follow(node, state)
        self.lines += self.stubs
        return self.lines

    def wanted_function(self, subtask):
        return self.texts.function(subtask, self.ends.wants(subtask))

    def follow(self, node, state):
        """Writes a node and what comes after it, up to an end or a branch without a way that falls through."""
        while node is not None:
            before = self.executed
            following = getattr(self, "do_" + node.kind)(node, state)
            if node.kind != "stop":
                self.texts.steps(node, self.executed - before)
            node = following

    def only(self, node):
        return node.next.get(None)

    def later(self, before, label, node, state, *prefix):
        """Leaves a way of the node `before` for later. It begins with the instructions of `prefix`."""
        self.work.append((before, label, node, state, prefix))
