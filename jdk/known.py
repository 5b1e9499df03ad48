"""The differences of JDK 25 from the rules, as a machine, and which rules a run meets.

A difference between the player and the rules is known if JdkMachine agrees with the player to the last event. JdkMachine has
only the known differences, and `met` names those that a run meets. Any other difference is a failure.
"""
from checks.models.plain_machine import Machine

SECOND_JOIN = "a second join"
EXPIRY = "an expiry of a cancelled scope"
FIRST_BINDING = "a fork behind a thread's first binding"
OTHER_BINDING = "a fork with other bindings in a cancelled scope"
CLOSE_ORDER = "a close without a join, with something open inside"
OPEN_END = "a task that ends with a scope or a binding open"
STATES = "states and values asked by others, or before a join"
LATE_READ = "a read after a timeout (profile 2)"
DIFFERENCES = (SECOND_JOIN, EXPIRY, FIRST_BINDING, OTHER_BINDING, CLOSE_ORDER, OPEN_END, STATES, LATE_READ)


class JdkMachine(Machine):
    """The rules with the differences of JDK 25. `is_beyond`: the JDK goes on where nothing more can be compared."""

    def __init__(self, program):
        super().__init__(program)
        self.met, self.is_beyond = set(), False

    def may_join(self, scope):
        if scope.phase == "attempted":
            self.met.add(SECOND_JOIN)
        return scope.phase == "opened"

    def expire(self, number):
        if number < len(self.scopes) and self.scopes[number].cancelled and self.may_expire(self.scopes[number]):
            self.met.add(EXPIRY)
            return False
        return super().expire(number)

    def unnested(self, task, it, held):
        kind = super().unnested(task, it, held)
        if it.op == "fork":
            return self.fork_bindings(task, self.scopes[held[1]], kind)
        if it.op in ("ret", "fail") and kind and not self.has_bound_scope(task):
            self.met.add(OPEN_END)
            self.is_beyond = True
            return None
        return kind

    def fork_bindings(self, task, scope, kind):
        if scope.cancelled:
            self.met.update([OTHER_BINDING] if kind else [])
            return None
        if kind is None and scope.fresh and task.bound:
            self.met.add(FIRST_BINDING)
            return "Structure"
        return kind

    def has_bound_scope(self, task):
        """Is a scope open that was opened in a binding of the task?"""
        kinds = [entry[0] for entry in task.entries]
        return "key" in kinds and "scope" in kinds[kinds.index("key"):]

    def not_now(self, task, it, held):
        kind = super().not_now(task, it, held)
        if it.op == "close" and kind and task.entries[-1] != ("scope", held[1]):
            self.met.add(CLOSE_ORDER)
            return "Structure"
        if it.op in ("tally", "total"):
            is_refused = it.op == "total" and self.refuses_values(held)
            if is_refused != bool(kind):
                self.met.add(LATE_READ if is_refused else STATES)
            return "IllegalState" if is_refused else None
        if it.op in ("get", "except") and kind is None and self.scopes[self.tasks[held[1]].scope].expired:
            self.met.add(LATE_READ)
            return "IllegalState"
        return kind

    def refuses_values(self, held):
        """Would the owner be refused a value of the scope that it asks for the total of?"""
        scope = self.scopes[held[1]]
        is_open = scope.phase == "joined" and not scope.expired
        return held[0] == "own" and not is_open and any(self.state(it) == "S" for it in scope.subtasks)

    def wrong_thread(self, it, held):
        if it.op in ("tally", "total") and held[0] == "parent":
            self.met.add(STATES)
            return None
        return super().wrong_thread(it, held)


class Witness(Machine):
    """The rules; `came` has the name of each rule that a run came to."""

    def __init__(self, program):
        super().__init__(program)
        self.came = set()

    def step(self, number):
        task = self.tasks[number] if number < len(self.tasks) else None
        waits = self.waits_for(task) if task is not None and task.lives() else None
        if waits:
            self.came.add(f"{waits[0]} waits")
        counts = super().step(number)
        if self.fault and counts:
            it = self.instruction(task)
            self.came.add(f"{self.fault[0]} {it.op if it else 'at the end'}")
        return counts

    def interrupt(self, number):
        counts = super().interrupt(number)
        if counts:
            waits = self.waits_for(self.tasks[number])
            is_closing = self.is_closing(self.tasks[number])
            self.came.add("interrupt in close" if is_closing else "interrupt at join" if self.is_at(number, "join") else "interrupt")
            self.came.update(["interrupt while close waits"] if is_closing and waits else [])
        return counts

    def is_at(self, number, op):
        it = self.instruction(self.tasks[number])
        return it is not None and it.op == op

    def expire(self, number):
        was_cancelled = number < len(self.scopes) and self.scopes[number].cancelled
        counts = super().expire(number)
        if number < len(self.scopes):
            self.came.add("expiry of a cancelled scope" if counts and was_cancelled else "expiry" if counts else "expiry without effect")
        return counts

    def cancel(self, scope):
        if not scope.cancelled:
            living = [it for it in scope.subtasks if self.tasks[it].lives()]
            owns = any(entry[0] == "scope" for it in living for entry in self.tasks[it].entries)
            self.came.update(["cancel of living subtasks"] if living else [])
            self.came.update(["cancel above an open scope"] if owns else [])
        super().cancel(scope)

    def do_fork(self, number, task, slot, function, handle):
        super().do_fork(number, task, slot, function, handle)
        self.came.add("fork" if self.tasks[-1].started else "fork in a cancelled scope")

    def do_join(self, number, task, slot, *targets):
        scope = self.held(task, slot)
        outcome, was_flagged, is_second = self.outcome(task, scope), task.flag, scope.phase == "attempted"
        are_done = not self.any_lives(scope)
        super().do_join(number, task, slot, *targets)
        if outcome == "result":
            outcome = "failed" if task.pc == targets[0] and scope.joiner.can_fail() else "ok"
            self.came.add(f"{scope.joiner.kind} {outcome}")
            self.came.update(["result before interrupt"] if was_flagged else [])
            self.came.update(["result while subtasks live"] if not are_done else [])
            self.came.update(["no end was told"] if scope.joiner.kind == "any" and not scope.told else [])
        self.came.add(f"join {outcome}")
        self.came.update(["timeout before interrupt"] if outcome == "timeout" and was_flagged else [])
        self.came.update(["second join"] if is_second else [])

    def do_close(self, number, task, slot):
        scope = self.held(task, slot)
        phase, is_first = scope.phase, scope.phase != "closing"
        super().do_close(number, task, slot)
        self.came.add("close that waits" if scope.phase == "closing" else "close at once" if is_first else "end of close")
        self.came.update(["close after an interrupted join"] if phase == "attempted" else [])
        self.came.update(["close with nothing forked"] if not scope.subtasks else [])

    def finish(self, number, task, end):
        super().finish(number, task, end)
        self.came.add("end that is told" if task.heard else "late end")

    def do_read(self, number, task, key):
        own = [entry[1] for entry in task.entries if entry[0] == "key"]
        self.came.add("read" if key in own else "read of an inherited binding")
        self.came.update(["read of a rebound key"] if sum(it[0] == key for it in self.environment(task)) > 1 else [])
        super().do_read(number, task, key)

    def perform(self, number, task, it):
        if it.op in ("case", "get", "except", "tally", "total", "cancelled", "bound", "orelse", "interrupted", "unbind"):
            self.came.add(it.op)
        if it.op == "cancelled" and task.slots[it.args[0]][0] == "parent":
            self.came.add("cancelled by a subtask")
        super().perform(number, task, it)
