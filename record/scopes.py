"""Writes opens and forks."""
from states import MOST_TURNS, SLOTS, Entry, Full

SHORT_RUN = 3  # so many equal forks are written one by one


class Opens:
    """The part of Code for opens and forks."""

    def do_open(self, node, state):
        slot = state.free()
        if slot is None:
            raise Full("slots", f"a task has more than {SLOTS - 1} scopes and subtasks that it asks, at {node.site().line}")
        it = node.scope.one()
        self.texts.explain(it)
        if self.is_root and not state.entries:
            self.bind_outer(state)
        state.bound_at[node.scope] = state.bound()
        state.hold(node.scope, slot)
        state.entries += (Entry(slot, node.scope, it.words(), it.timed),)
        self.say(f"open s{slot} {it.words()}{' timed' if it.timed else ''}", node.site())
        return self.only(node)

    def bind_outer(self, state):
        """Makes the bindings that were in force before the outermost scope was opened, as far as somebody reads them."""
        for key, value in sorted(self.texts.outer.items()):
            self.say(f"push {value}")
            self.say(f"bind {key}")
            state.entries += (Entry(key),)

    def do_fork(self, node, state):
        if "fault" in node.next and node.subtask is None:
            return self.refused_fork(node, state)
        made = self.texts.function(node.subtask, self.ends.wants(node.subtask))
        inherited = state.bound_at.get(node.scope, set())
        self.needs |= made.needs - inherited
        handle = self.handle(node, state)
        entry = state.slots.get(node.scope, 0)
        words = f"fork s{entry} {made.name} {handle}"
        run = self.run(node, made) if handle == "_" else [node]
        if len(run) <= SHORT_RUN:
            self.fork(made, words, node.site())
            return self.only(node)
        return self.forks(run, made, words)

    def refused_fork(self, node, state):
        never = self.texts.never(node.site())
        self.say(f"fork s{state.slots.get(node.scope, 0)} {never} _", node.site())
        return node.next["fault"]

    def handle(self, node, state):
        if node.subtask not in self.ends.asked or self.ends.forks[node.subtask] > 1:
            return "_"
        slot = state.free()
        if slot is None:
            return "_"
        state.hold(node.subtask, slot)
        return f"s{slot}"

    def fork(self, made, words, site):
        for value in made.pushes:
            self.say(f"push {value}")
        self.say(words, site)

    def run(self, node, made):
        """Returns the equal forks that begin here, one after the other."""
        run, at = [node], self.only(node)
        while at is not None and at.kind == "fork" and at.scope is node.scope and at.subtask is not None and at.site() == node.site() \
                and at.subtask not in self.ends.asked and self.texts.function(at.subtask, self.ends.wants(at.subtask)) == made:
            run.append(at)
            at = self.only(at)
        return run[:MOST_TURNS]

    def forks(self, run, made, words):
        """Writes equal forks as a loop."""
        turn = len(made.pushes) + 2
        for node in run[1:]:
            self.texts.steps(node, turn)
        self.line(f"push {len(run)}")
        self.line(f"times {len(run)}")
        for value in made.pushes:
            self.line(f"push {value}")
        self.line(words, run[0].site().line)
        self.line("next")
        self.executed += turn + 2  # of the first node
        return self.only(run[-1])
