"""Writes the ends of a task, and the choices that lead to them."""
import values as numbers
from states import MOST_ARGUMENTS


class Leaves:
    """The part of Code for ends and choices."""

    def do_end(self, node, state):
        if self.is_root:
            self.unbind_outer(state)
        if len(self.ends.of(node)) > 1:
            self.texts.dice.add(self.joined.task().site.line)
        self.among_ends(self.ends.of(node), state)
        return None

    def unbind_outer(self, state):
        while state.entries and state.entries[-1].scope is None:
            self.say("unbind")
            state.entries = state.entries[:-1]

    def among_ends(self, ends, state):
        slot = state.free()
        if len(ends) > 1 and slot is None:
            self.texts.left_out(f"{len(ends) - 1} other ends of {self.name()}, since no slot is free")
        if len(ends) == 1 or slot is None:
            self.finish(ends[0], state)
            return
        late = self.choose(self.lines, slot)
        self.finish(ends[0], state)
        self.lines += [f"{late}:"]
        self.line(f"close s{slot}")
        self.among_ends(ends[1:], state)

    def finish(self, end, state):
        if end.kind == "counted" and end.nodes[0] in state.kept:
            self.say(f"load {state.kept[end.nodes[0]]}")
        elif end.kind in ("source", "parts") and all(it in state.kept for it in end.nodes):
            for number, it in enumerate(end.nodes):
                if number:
                    self.say(f"push {numbers.PART}")
                    self.say("mul")
                self.say(f"load {state.kept[it]}")
                if number:
                    self.say("add")
        elif self.is_root:
            self.say(f"push {end.number}")
        else:
            place = self.argument(end.number)
            self.say(f"push {end.number}" if place is None else f"load {place}")
        self.say(end.way)

    def argument(self, number):
        """Returns the place of the argument for this number, or None if there are too many: then the function has the number itself."""
        if number not in self.args:
            if len(self.args) == MOST_ARGUMENTS:
                return None
            self.args.append(number)
        return self.args.index(number)

    def do_choice(self, node, state):
        self.texts.dice.add(node.site().line)
        return self.among([node.next[it] for it in sorted(node.next)], state)

    def among(self, ways, state):
        """Writes a choice between nodes. Returns the first one."""
        slot = state.free()
        if slot is None:
            self.texts.left_out(f"{len(ways) - 1} other ways of {self.name()}, since no slot is free")
            return ways[0]
        late = self.choose(self.lines, slot)
        other = state.copy()
        if len(ways) == 2:
            self.later(ways[1], late, ways[1], other, f"close s{slot}")
        else:
            self.later(ways[1], late, Among(ways[1:], slot), other, f"close s{slot}")
        return ways[0]

    def do_among(self, node, state):
        return self.among(node.ways, state) if len(node.ways) > 1 else node.ways[0]

    def do_stop(self, node, state):
        """Nothing more was recorded of the task."""
        recording, task, last = node.members[0]
        if last is not None and last.fault:
            self.ended(self.lines, self.values.unrecorded(f"what comes of {last.fault} at {last.site.line}"), state.entries, "fail")
        elif task.pending == "join" and task.pending_scope is not None and self.pending_join(recording, task, state):
            pass
        else:
            where = f"close at {task.pending_site.line}" if task.pending == "close" else task.where or task.site.line
            self.ended(self.lines, self.values.unrecorded(f"what {self.name()} gives, which was still at work"), state.entries, "fail", where)
        return None

    def pending_join(self, recording, task, state):
        scope = recording.scopes[task.pending_scope]
        entry = next((it for it in state.entries if it.scope and scope in it.scope.members.values()), None)
        if entry is None:
            return False
        self.join(task.pending_site, entry, {}, state, None)
        return True


class Among:
    """The other ways of a choice."""
    kind = "among"
    members = ()

    def __init__(self, ways, slot):
        self.ways = ways
