"""Writes questions about scopes, subtasks and scoped values."""
from states import Entry


class Questions:
    """The part of Code for what a task asks."""

    def do_cancelled(self, node, state):
        _, task, op = node.members[0]
        slot = 0 if not self.is_root and op.scope is task.parent else state.slots.get(node.scope)
        if slot is None:
            self.remark(node.site(), f"isCancelled() of another task's scope = {node.op().answer}")
            return self.one_of(node, state)
        self.say(f"cancelled s{slot}", node.site())
        return self.steered(node, state)

    def do_interrupted(self, node, state):
        self.say("interrupted", node.site())
        return self.steered(node, state)

    def steered(self, node, state):
        """The answer is on the stack: with yes a task mostly gives up, so the way of no is another one."""
        if "true" not in node.next:
            self.say("pop")
            return node.next["false"]
        label = self.label("on")
        self.say(f"jz {label}")
        if "false" in node.next:
            self.later(node, label, node.next["false"], state.copy())
        else:
            self.stubs.append(f"{label}:")
            self.unknown(self.stubs, state, self.name(), f"if it isn't cancelled at {node.site().line}")
        return node.next["true"]

    def do_cut(self, node, state):
        """A cancel interrupted the task, and it ended."""
        label = self.label("on")
        self.say("interrupted")
        self.say(f"jz {label}")
        if self.only(node) is not None:
            self.later(node, label, self.only(node), state.copy())
        else:
            self.stubs.append(f"{label}:")
            self.unknown(self.stubs, state, self.name(), "if it isn't cancelled")
        end = self.ends.of(node)[0]
        self.finish(end, state)
        return None

    def do_state(self, node, state):
        slot, entry = state.slots.get(node.subtask), state.entry(node.subtask.parent) if node.subtask else None
        if node.op().way or slot is None or entry is None or entry.phase == "opened":
            late = " after close" if node.op().way == "late" else ""
            self.remark(node.site(), f"state(){late} = {node.op().answer}")
            return self.one_of(node, state)
        labels = {it: self.label(it[0]) for it in ("success", "failed")}
        self.say(f"case s{slot} {labels['success']} {labels['failed']}", node.site())
        for answer in ("failed", "success"):
            if answer in node.next:
                self.later(node, labels[answer], node.next[answer], state.copy())
            else:
                self.stubs.append(f"{labels[answer]}:")
                self.unknown_state(self.stubs, node, answer, state)
        if "unavailable" in node.next:
            return node.next["unavailable"]
        self.unknown_state(self.lines, node, "unavailable", state)
        return None

    def unknown_state(self, to, node, answer, state):
        self.ended(to, self.values.unknown(f"what comes of the state {answer.upper()} at {node.site().line}"), state.entries, "ret")

    def one_of(self, node, state):
        """An answer that the text doesn't ask for: what came after each answer is a choice."""
        ways = list(node.next.values())
        return ways[0] if len(ways) == 1 else self.among(ways, state)

    def do_get(self, node, state):
        return self.read(node, state, "get")

    def do_except(self, node, state):
        return self.read(node, state, "except")

    def read(self, node, state, word):
        slot = state.slots.get(node.subtask)
        if node.op().way or slot is None:
            if node.op().way != "late" or not self.texts.is_for_search:
                self.remark(node.site(), f"{'get' if word == 'get' else 'exception'}()")
            return node.next.get("fault") or self.only(node)
        self.say(f"{word} s{slot}", node.site())
        if "fault" in node.next:
            if self.only(node) is not None:
                self.texts.left_out(f"a fault of {word} that only some recordings have at {node.site().line}")
            return self.only(node) or node.next["fault"]
        self.say(self.keep(node, "ok", state))
        return self.only(node)

    def do_bind(self, node, state):
        recording, _, op = node.members[0]
        self.say(f"push {self.values.number(recording, op.value)}")
        self.say(f"bind {self.texts.key(recording, op.key)}", node.site())
        state.entries += (Entry(self.texts.key(recording, op.key)),)
        return self.only(node)

    def do_unbind(self, node, state):
        self.say("unbind", node.site())
        if state.entries:
            state.entries = state.entries[:-1]
        return self.only(node)

    def do_read(self, node, state):
        key = self.asked_key(node, state, "fault" not in node.next)
        self.say(f"read {key}", node.site())
        if "fault" in node.next:
            return node.next["fault"]
        self.say(self.keep(node, "ok", state))
        return self.only(node)

    def do_bound(self, node, state):
        self.say(f"bound {self.asked_key(node, state, node.op().answer == 'true')}", node.site())
        self.say("pop")
        return self.only(node)

    def do_orelse(self, node, state):
        key = self.asked_key(node, state, True)
        self.say("push 0")
        self.say(f"orelse {key}", node.site())
        self.say("pop")
        return self.only(node)

    def asked_key(self, node, state, is_bound):
        recording, _, op = node.members[0]
        key = self.texts.key(recording, op.key)
        if is_bound and key not in state.bound():
            self.needs.add(key)
            self.texts.bind_before(recording, op)
        return key
