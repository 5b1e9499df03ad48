"""Writes the text and the trace of a recording, and the text of several recordings of one handler.

`replayed` gives a text and a trace in which each event is there. `searched` gives a text for `look ends`, of one recording or of
several: without questions and scoped values that steer nothing.
"""
import re

from ends import Wants
from functions import Code, Function
from named import Names
from outcomes import KEYS, Joining, Options, kept
from states import Full
from unrecorded import unstarted
from values import Values, ascii

MOST_FUNCTIONS, MOST_KEYS, MANY = 64, 16, 64
MOST_NAME = 26


class Texts:
    """The functions of one text."""

    def __init__(self, recordings, options, is_for_search):
        self.recordings, self.options, self.is_for_search = recordings, options, is_for_search
        self.values, self.names = Values(), Names()
        self.bodies, self.used, self.made, self.keys = {}, {}, {}, {}
        self.outer, self.profile, self.dice = {}, 1, set()
        self.left, self.step_counts, self.expected, self.root_ways = {}, {}, {}, {}
        self.root = Joining(options).root(recordings)

    # ---- what the functions ask of their text

    def function(self, joined, wants):
        """Returns the function of a task."""
        if joined not in self.made:
            self.made[joined] = self.written(joined, wants)
        return self.made[joined]

    def written(self, joined, wants):
        if joined.tree is None:
            return Function(self.never(joined.task().site, wants), (), frozenset(), False, True)
        code = Code(self, joined, wants)
        lines = code.write()
        body = "\n".join(lines)
        name = self.named(joined.task().site, len(code.args), code.needs, body)
        kinds = {end.kind for ends in code.ends.found.values() for end in ends}
        composite = "parts" in kinds or any(
            it.kind == "join" and any(sub in code.ends.composite for sub in code.ends.composite) or it.subtask in code.ends.composite
            for ends in code.ends.found.values() for end in ends if end.kind == "source" for it in end.nodes)
        return Function(name, tuple(code.args), frozenset(code.needs), composite, code.is_guess)

    def named(self, site, args, needs, body):
        """Returns the name of the function with this body; makes it if there is none."""
        base = re.sub(r"[^A-Za-z0-9_]", "_", site.called or f"{site.method}_{site.line.split(':')[-1]}")[:MOST_NAME]
        base = base if re.match(r"[A-Za-z_]", base) and base != "main" else f"task_{base}"
        head = f"{args}{''.join(f' {it}' for it in ['needs', *sorted(needs)]) if needs else ''}"
        shown = f"{site.line} {site.called or site.method}".strip()
        key = (head, shown, body)
        if key not in self.bodies:
            self.used[base] = self.used.get(base, 0) + 1
            self.bodies[key] = base if self.used[base] == 1 else f"{base}_{self.used[base]}"
            if len(self.bodies) >= MOST_FUNCTIONS:
                raise Full("functions", f"there are more than {MOST_FUNCTIONS} different functions")
        return self.bodies[key]

    def never(self, site, wants=Wants()):
        return self.named(site, 0, (), unstarted(self, f"{site.called or 'the task'} at {site.line}", wants))

    def is_guess(self, scope):
        """May a subtask of the scope end in a way that wasn't recorded?"""
        return any(it.is_guess for joined, it in self.made.items() if joined.parent is scope)

    def is_blank(self, joined):
        """Are values left out that nothing depends on?"""
        return self.is_for_search or self.options.is_alike or joined.parent is not None and joined.parent.forks_most() > MANY

    def steps(self, node, count):
        for _, _, op in node.members:
            if op is not None:
                self.step_counts[op] = self.step_counts.get(op, 0) + count

    def key(self, recording, key):
        number = self.keys.setdefault((recording, key), len(self.keys))
        if number >= MOST_KEYS:
            raise Full("keys", f"there are more than {MOST_KEYS} scoped values")
        return number

    def bind_before(self, recording, op):
        """Notes that the key of a question was bound before the outermost scope was opened: the root's prelude binds it."""
        self.outer.setdefault(self.key(recording, op.key), self.values.number(recording, op.value) if op.kind != "bound" else 1)

    def ask_root(self):
        """Notes which of these bindings the root itself asks for. Its questions are written after its prelude."""
        for recording in self.recordings:
            bound = []
            for op in kept(recording.tasks[0], self.options, ()):
                if op.kind == "bind":
                    bound.append(op.key)
                elif op.kind == "unbind":
                    del bound[-1:]
                elif op.kind in KEYS and not op.fault and op.answer != "false" and op.key not in bound:
                    self.bind_before(recording, op)

    def left_out(self, what):
        self.left.setdefault(what)

    def explain(self, scope):
        if scope.is_custom():
            self.left_out(f"what the joiner {scope.joiner[7:]} decides: it is taken to count ends")
        elif scope.is_until():
            self.left_out("what the predicate of allUntil decides: it is taken to count ends")

    # ---- the files

    def text(self):
        # the functions of subtasks first: the root's prelude binds what they need
        code = Code(self, self.root, Wants())
        code.ends.study(self.root.tree, code.wanted_function)
        self.ask_root()
        code = Code(self, self.root, Wants())
        body = "\n".join(code.write())
        site = self.recordings[0].site
        functions = [self.names.function(name, head, shown, lines) for (head, shown, lines), name in self.bodies.items()]
        functions.append(self.names.function("main", "0", f"{site.line} {site.method}".strip(), body))
        lines = [f"profile {self.profile}"] if self.profile == 2 else []
        lines += [f"; {it}" for it in self.head()] + [self.names.value(*it) for it in sorted(self.values.names.items())]
        return "\n".join(lines + functions) + "\n"

    def head(self):
        first, many = self.recordings[0], len(self.recordings)
        yield f"{first.name}: {first.site.line}" if many == 1 else f"{many} recordings of {first.site.line}"
        for it in self.recordings:
            if it.unfinished:
                yield f"unfinished: {ascii(it.unfinished)}"
            for note in it.notes:
                yield ascii(note)
        for it in self.left:
            yield f"left out: {ascii(it)}"

    def trace(self):
        recording, lines = self.recordings[0], []
        for kind, it in recording.events:
            if kind == "do":
                lines += [f"step {it.task}"] * self.step_counts.get(it, 0)
            else:
                lines.append(f"step {it}" if kind == "closed" else f"{kind} {it}")
        return "".join(f"{it}\n" for it in lines)


def tried(recordings, tries, is_for_search):
    """Returns the first text of several kinds that keeps the limits of the language."""
    why = None
    for options in tries:
        try:
            made = Texts(recordings, options, is_for_search)
            if why:
                made.left_out(f"questions and values, since {why}")
            return made, made.text()
        except Full as full:
            why = why or str(full)
    raise Full("text", why)


def replayed(recording):
    """Returns the text and the trace of a recording, and the Texts."""
    made, text = tried([recording], [Options(), Options(is_lean=True), Options(is_lean=True, is_alike=True)], False)
    return text, made.trace(), made


def searched(recordings):
    """Returns the text for a search, and the Texts. Of several recordings it takes those that were finished."""
    recordings = [it for it in recordings if not it.unfinished] or recordings
    made, text = tried(recordings, [Options(is_lean=True), Options(is_lean=True, is_alike=True)], True)
    return text, made
