"""Writes joins and closes."""
import values as numbers
from states import LOCALS, MOST_ARGUMENTS


class Joins:
    """The part of Code for joins and closes."""

    def do_join(self, node, state):
        entry = state.entry(node.scope)
        if entry is None:
            self.remark(node.site(), "join of another task's scope")
            return next(iter(node.next.values()))
        return self.join(node.site(), entry, dict(node.next), state, node)

    def join(self, site, entry, recorded, state, node):
        """Writes a join. Returns the node after a result."""
        if "fault" in recorded:
            recorded = {"ok": recorded["fault"]}
        if "failed" in recorded and not entry.fails():
            self.texts.left_out(f"the failure of a joiner of the application at {site.line}")
            recorded.setdefault("ok", recorded.pop("failed"))
        ways = {"failed": entry.fails(), "timeout": entry.timed, "interrupted": True}
        labels = {way: self.label({"failed": "failed", "timeout": "late", "interrupted": "intr"}[way]) if is_there else "-"
                  for way, is_there in ways.items()}
        self.say(f"join s{entry.slot} {' '.join(labels.values())}", site)
        for way, label in reversed(labels.items()):
            if label != "-":
                self.other_way(way, label, site, entry, recorded.get(way), state.copy(), node)
        return self.result_way(site, entry, recorded, state, node)

    def result_way(self, site, entry, recorded, state, node):
        state.phase(entry, "joined")
        if "ok" in recorded:
            state.join = (node, "ok")
            if entry.gives():
                self.say(self.keep(node, "ok", state))
            return recorded["ok"]
        if entry.gives():
            self.line("pop")
        if node in self.ends.counting:
            self.tally(self.lines, entry, numbers.IN_TIME, site)
            self.give_up(self.lines, state.entries, "ret")
        else:
            self.ended(self.lines, self.values.unknown(f"what comes of a result of join at {site.line}"), state.entries, "ret")
        return None

    def other_way(self, way, label, site, entry, node_after, state, node):
        state.phase(entry, {"failed": "joined", "timeout": "late", "interrupted": "attempted"}[way])
        state.join = (node, way)
        if node_after is not None:
            self.later(node, label, node_after, state, *([self.keep(node, "failed", state)] if way == "failed" else []))
            return
        self.stubs.append(f"{label}:")
        if way == "failed":
            self.give_up(self.stubs, state.entries)
        elif way == "timeout" and node in self.ends.counting:
            self.texts.profile = 2
            self.tally(self.stubs, state.entry(entry.scope), numbers.LATE, site)
            self.give_up(self.stubs, state.entries)
        else:
            what = "TimeoutException" if way == "timeout" else "InterruptedException"
            self.ended(self.stubs, self.values.unrecorded(f"what comes of {what} of join at {site.line}"), state.entries, "fail")

    def tally(self, to, entry, base, site):
        """Pushes how many subtasks succeeded."""
        for words in (f"tally s{entry.slot} S", f"push {base}", "add"):
            self.line(words, to=to)
        for count in range(entry.scope.forks_most() + 1):
            self.values.counted(base, count, site.line, self.texts.is_guess(entry.scope))

    def keep(self, node, way, state):
        """Returns the instruction that keeps the value on the stack for an end, or drops it."""
        if (node, way) not in self.ends.taken:
            return "pop"
        local = LOCALS - 1 - len(state.kept)
        if local < MOST_ARGUMENTS:
            return "pop"
        state.kept[node] = local
        return f"store {local}"

    def do_close(self, node, state):
        slot = state.slots.pop(node.scope, None)
        entry = state.entry(node.scope)
        if entry and state.join and state.join[0] in self.ends.counting and state.join[0].scope is node.scope:
            self.count_at_close(entry, state)
        self.say(f"close s{slot or 0}", node.site())
        gone = {it for it in state.slots if getattr(it, "parent", None) is node.scope}
        state.busy -= {slot} | {state.slots.pop(it) for it in gone}
        state.entries = tuple(it for it in state.entries if it is not entry)
        return node.next.get("fault") or self.only(node)

    def count_at_close(self, entry, state):
        join, way = state.join
        if way not in ("ok", "timeout"):
            return
        if way == "timeout":
            self.texts.profile = 2
        before = self.count
        self.tally(self.lines, entry, numbers.IN_TIME if way == "ok" else numbers.LATE, join.site())
        local = LOCALS - 1 - len(state.kept)
        state.kept[join] = local
        self.line(f"store {local}")
        self.executed += self.count - before
