"""The plain machine: tasks and scopes, the events of a run, and what each instruction does."""
from faults import Misuse, check
from program import GIVES_NUMBER, SLOTS, STACK

LOCALS = 16


def wrapped(value):
    """Returns a number cut to 64 bits with a sign."""
    return (value + 2**63) % 2**64 - 2**63


def quotient(a, b):
    """Returns a / b rounded toward zero."""
    return wrapped(abs(a) // abs(b) * (1 if (a < 0) == (b < 0) else -1))


ARITHMETIC = {
    "add": lambda a, b: wrapped(a + b),
    "sub": lambda a, b: wrapped(a - b),
    "mul": lambda a, b: wrapped(a * b),
    "lt": lambda a, b: int(a < b),
    "eq": lambda a, b: int(a == b),
}


class Binding:
    """An open binding of a task."""

    def __init__(self, key, value):
        self.key, self.value = key, value


class Task:
    """A task. `parent` is the scope that it is a subtask of, and None for the root."""

    def __init__(self, number, function, parent, arguments):
        self.number, self.function, self.parent, self.place = number, function, parent, 0
        self.stack, self.locals, self.loops = [], arguments + [0] * (LOCALS - len(arguments)), []
        self.open, self.slots, self.flag = [], [None] * SLOTS, False
        self.slots[0] = parent
        self.lives, self.state, self.end = True, "U", None

    def instruction(self):
        """Returns the next instruction, or None at the end of the function."""
        return self.function.code[self.place] if self.place < len(self.function.code) else None

    def environment(self):
        """Returns the bindings in force as pairs, the innermost first."""
        own = [(it.key, it.value) for it in reversed(self.open) if isinstance(it, Binding)]
        return own + (self.parent.environment if self.parent else [])

    def value_of(self, key):
        """Returns the innermost value of a key, or None."""
        return next((value for bound, value in self.environment() if bound == key), None)


class Scope:
    """A scope. `first` has the first value and the first code that the joiner was told."""

    def __init__(self, owner, joiner, timed):
        self.owner, self.joiner, self.timed, self.environment = owner, joiner, timed, owner.environment()
        self.phase, self.cancelled, self.expired = "opened", False, False
        self.subtasks, self.living = [], 0
        self.count, self.first = {"S": 0, "F": 0}, {}

    def number_of(self, state):
        """Returns how many subtasks are in a state."""
        return len(self.subtasks) - self.count["S"] - self.count["F"] if state == "U" else self.count[state]

    def cancel(self):
        if not self.cancelled:
            self.cancelled = True
            for it in self.subtasks:
                it.flag = it.flag or it.lives

    def tell(self, task):
        """Tells the joiner of an end, which may cancel the scope."""
        task.state = "S" if task.end[0] == "success" else "F"
        self.count[task.state] += 1
        self.first.setdefault(task.state, task.end[1])
        if self.is_decided(task):
            self.cancel()

    def is_decided(self, task):
        """Returns whether the joiner cancels the scope after the end of a task."""
        kind, what, number = self.joiner
        if kind in ("all", "awaitok"):
            return task.state == "F"
        if kind == "any":
            return task.state == "S"
        if kind == "awaitall":
            return False
        if what == "atleast":
            return task.state == "S" and task.end[1] >= number
        return self.count["F" if what == "failed" else "S"] >= number

    def result(self):
        """Returns whether the result is ok, and the operands that `join` pushes."""
        kind = self.joiner.kind
        if kind == "any" and self.count["S"]:
            return True, [self.first["S"]]
        if kind == "any":
            return False, [self.first.get("F", -1)]
        if kind in ("all", "awaitok") and self.count["F"]:
            return False, [self.first["F"]]
        return True, [len(self.subtasks)] if kind in GIVES_NUMBER else []

    def is_readable(self, profile):
        """Returns whether the owner may read the subtasks."""
        return self.phase == "joined" and (profile == 2 or not self.expired)


class Machine:
    """A run of a program. `counting` has how many tasks and scopes count against the limits."""

    def __init__(self, program):
        self.program, self.profile = program, program.profile
        self.functions = program.functions
        self.matches = {it: it.matches() for it in program.functions}
        self.does = {word: getattr(self, f"do_{word}", None) for word in STACK}
        self.tasks, self.scopes = [Task(0, program.functions[-1], None, [])], []
        self.counting = {"tasks": 1, "scopes": 0}
        self.steps, self.fault = 0, None

    def match(self, task, times):
        """Returns the place of the `next` that matches a `times`, or None."""
        return self.matches[task.function].get(times)

    def event(self, word, number, count=1):
        """Plays an event `count` times."""
        if word == "step":
            if number < len(self.tasks):
                task = self.tasks[number]
                while count and self.can_step(task):
                    self.step(task)
                    count -= 1
        elif self.fault:
            return
        elif word == "interrupt" and number < len(self.tasks):
            self.tasks[number].flag = self.tasks[number].flag or self.tasks[number].lives
        elif word == "expire" and number < len(self.scopes):
            self.expire(self.scopes[number])

    def expire(self, scope):
        if scope.timed and not scope.expired and scope.phase in ("opened", "attempted"):
            scope.expired = True
            scope.cancel()

    def can_step(self, task):
        """Returns whether a step of the task counts."""
        if self.fault or not task.lives:
            return False
        it = task.instruction()
        return it is None or it.word not in ("join", "close") or not self.waits(task, it)

    def waits(self, task, it):
        """Returns whether a task waits at its join or close. A misuse never waits."""
        scope = task.slots[it.operands[0]]
        if not isinstance(scope, Scope) or scope.owner is not task or not scope.living:
            return False
        if it.word == "close":
            return scope.phase == "closing"
        return not (scope.expired or scope.cancelled or task.flag or self.misuse(task, it))

    def misuse(self, task, it):
        """Returns the kind of misuse that an instruction would be, or None."""
        try:
            check(self, task, it)
        except Misuse as misuse:
            return misuse.args[0]
        return None

    def step(self, task):
        """Executes the next instruction of a task, or records its fault."""
        it = task.instruction()
        self.steps += 1
        kind = self.misuse(task, it)
        if kind:
            self.fault = (kind, task)
            return
        task.place += 1
        if it.word in ARITHMETIC:
            b, a = task.stack.pop(), task.stack.pop()
            task.stack.append(ARITHMETIC[it.word](a, b))
        else:
            self.does[it.word](task, *it.operands)

    # Stack, locals, jumps and loops.

    def do_push(self, task, value):
        task.stack.append(value)

    def do_pop(self, task):
        task.stack.pop()

    def do_dup(self, task):
        task.stack.append(task.stack[-1])

    def do_swap(self, task):
        task.stack[-1], task.stack[-2] = task.stack[-2], task.stack[-1]

    def do_load(self, task, local):
        task.stack.append(task.locals[local])

    def do_store(self, task, local):
        task.locals[local] = task.stack.pop()

    def do_div(self, task, target):
        b, a = task.stack.pop(), task.stack.pop()
        if b == 0:
            task.place = target
        else:
            task.stack.append(quotient(a, b))

    def do_jmp(self, task, target):
        task.place = target

    def do_jz(self, task, target):
        if task.stack.pop() == 0:
            task.place = target

    def do_times(self, task, bound):
        times = task.place - 1
        turns = min(max(task.stack.pop(), 0), bound)
        if turns == 0:
            task.place = self.match(task, times) + 1
        else:
            task.loops.append([times, turns])

    def do_next(self, task):
        task.loops[-1][1] -= 1
        if task.loops[-1][1] == 0:
            task.loops.pop()
        else:
            task.place = task.loops[-1][0] + 1

    # Scopes and subtasks.

    def do_open(self, task, slot, joiner, timed):
        scope = Scope(task, joiner, timed)
        self.scopes.append(scope)
        self.counting["scopes"] += 1
        task.open.append(scope)
        task.slots[slot] = scope

    def do_fork(self, task, slot, function, handle):
        scope, callee = task.slots[slot], self.functions[function]
        first = len(task.stack) - callee.args
        arguments = task.stack[first:]
        del task.stack[first:]
        child = Task(len(self.tasks), callee, scope, arguments)
        child.lives = not scope.cancelled
        self.tasks.append(child)
        self.counting["tasks"] += 1
        scope.subtasks.append(child)
        scope.living += child.lives
        if handle is not None:
            task.slots[handle] = child

    def do_join(self, task, slot, failed, timeout, interrupted):
        scope = task.slots[slot]
        if scope.expired:
            scope.phase = "joined"
            task.place = timeout
        elif scope.cancelled or not scope.living:
            scope.phase = "joined"
            ok, pushed = scope.result()
            task.stack += pushed
            if not ok:
                task.place = failed
        else:
            scope.phase, task.flag = "attempted", False
            task.place = interrupted

    def do_close(self, task, slot):
        scope = task.slots[slot]
        scope.cancel()
        if scope.living:
            scope.phase = "closing"
            task.place -= 1
            return
        scope.phase = "closed"
        self.counting["scopes"] -= 1
        self.counting["tasks"] -= len(scope.subtasks)
        task.open.remove(scope)
        task.slots = [None if it is scope or isinstance(it, Task) and it.parent is scope else it for it in task.slots]

    def do_cancelled(self, task, slot):
        task.stack.append(int(task.slots[slot].cancelled))

    def do_case(self, task, slot, success, failed):
        state = task.slots[slot].state
        if state == "S":
            task.place = success
        elif state == "F":
            task.place = failed

    def do_get(self, task, slot):
        task.stack.append(task.slots[slot].end[1])

    do_except = do_get

    def do_tally(self, task, slot, state):
        task.stack.append(task.slots[slot].number_of(state))

    def do_total(self, task, slot):
        task.stack.append(wrapped(sum(it.end[1] for it in task.slots[slot].subtasks if it.state == "S")))

    def do_forget(self, task, slot):
        task.slots[slot] = None

    # Bindings, the flag, and ends.

    def do_bind(self, task, key):
        task.open.append(Binding(key, task.stack.pop()))

    def do_unbind(self, task):
        task.open.pop()

    def do_read(self, task, key):
        task.stack.append(task.value_of(key))

    def do_bound(self, task, key):
        task.stack.append(int(task.value_of(key) is not None))

    def do_orelse(self, task, key):
        default, value = task.stack.pop(), task.value_of(key)
        task.stack.append(default if value is None else value)

    def do_interrupted(self, task):
        task.stack.append(int(task.flag))
        task.flag = False

    def do_ret(self, task):
        self.end(task, "success")

    def do_fail(self, task):
        self.end(task, "failed")

    def end(self, task, outcome):
        task.lives, task.end = False, (outcome, task.stack.pop())
        if task.parent:
            task.parent.living -= 1
            if not task.parent.cancelled:
                task.parent.tell(task)

    def answer(self):
        """Returns the members of `run`."""
        root = self.tasks[0]
        if self.fault:
            kind, task = self.fault
            place = {"fault": kind, "task": task.number, "function": task.function.name, "place": task.place}
            return {"outcome": "fault", **place, "steps": self.steps}
        if root.lives:
            return {"outcome": "running", "steps": self.steps}
        return {"outcome": root.end[0], "value" if root.end[0] == "success" else "code": root.end[1], "steps": self.steps}
