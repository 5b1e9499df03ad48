"""The rules of docs/BEHAVIOUR.md as a machine in Python, written from that page and apart from the crates.

A Machine takes events one by one and prints its state in the lines of `look view`. If another runtime of scopes may have
another rule, the rule is a method of its own. So a machine with another rule is a subclass with that method.
"""
from checks.models import stack_code

LEAST, MOST = -(2**63), 2**63 - 1
MOST_OPERANDS, MOST_LOOPS, MOST_ENTRIES, MOST_STANDING, MOST_BORN = 32, 8, 16, 65_536, 1_000_000
POPS = {"pop": 1, "dup": 1, "swap": 2, "store": 1, "add": 2, "sub": 2, "mul": 2, "lt": 2, "eq": 2, "div": 2, "jz": 1,
        "times": 1, "bind": 1, "orelse": 1, "ret": 1, "fail": 1}
PUSHES = {"push": 1, "dup": 2, "swap": 2, "load": 1, "add": 1, "sub": 1, "mul": 1, "lt": 1, "eq": 1, "cancelled": 1,
          "get": 1, "except": 1, "tally": 1, "total": 1, "read": 1, "bound": 1, "orelse": 1, "interrupted": 1}
OF_A_SCOPE = ("fork", "join", "close", "tally", "total")
OF_A_SUBTASK = ("case", "get", "except", "forget")
READS = ("get", "except", "tally", "total")
LOCAL = ("push", "pop", "dup", "swap", "load", "store", "add", "sub", "mul", "lt", "eq", "div", "jmp", "jz", "times", "next")


def wrapped(number):
    return (number - LEAST) % 2**64 + LEAST


def quotient(a, b):
    """Returns a / b, rounded toward zero and wrapped."""
    return wrapped(abs(a) // abs(b) * (1 if (a < 0) == (b < 0) else -1))


class Task:
    __slots__ = ("scope", "function", "pc", "stack", "locals", "loops", "entries", "slots", "flag", "end", "heard", "started",
                 "bound")

    def __init__(self, scope, function, arguments, started):
        self.scope, self.function, self.pc = scope, function, 0
        self.stack, self.locals, self.loops = [], arguments + [0] * (16 - len(arguments)), []
        self.entries = []  # ("scope", number) and ("key", key, value), the last opened last
        self.slots = [None] * 16  # None, ("own" or "parent", scope) or ("sub", task)
        if scope is not None:
            self.slots[0] = ("parent", scope)
        self.flag, self.end, self.heard, self.started = False, None, False, started
        self.bound = False  # has it ever made a binding?

    def lives(self):
        return self.started and self.end is None

    def copy(self):
        it = Task.__new__(Task)
        it.scope, it.function, it.pc, it.flag = self.scope, self.function, self.pc, self.flag
        it.end, it.heard, it.started, it.bound = self.end, self.heard, self.started, self.bound
        it.stack, it.locals, it.loops = self.stack[:], self.locals[:], self.loops[:]
        it.entries, it.slots = self.entries[:], self.slots[:]
        return it

    def key(self):
        return (self.scope, self.function, self.pc, tuple(self.stack), tuple(self.locals), tuple(self.loops),
                tuple(self.entries), tuple(self.slots), self.flag, self.end, self.heard, self.started)


class Scope:
    __slots__ = ("owner", "joiner", "timed", "phase", "cancelled", "expired", "subtasks", "told", "bindings", "fresh")

    def __init__(self, owner, joiner, timed, bindings):
        self.owner, self.joiner, self.timed, self.bindings = owner, joiner, timed, bindings
        self.phase, self.cancelled, self.expired = "opened", False, False
        self.subtasks, self.told = [], []  # numbers of tasks; (task, "success" or "failed", number)
        self.fresh = False  # was it opened by a thread that had never had a binding?

    def copy(self):
        it = Scope.__new__(Scope)
        it.owner, it.joiner, it.timed, it.bindings, it.fresh = self.owner, self.joiner, self.timed, self.bindings, self.fresh
        it.phase, it.cancelled, it.expired = self.phase, self.cancelled, self.expired
        it.subtasks, it.told = self.subtasks[:], self.told[:]
        return it

    def key(self):
        return (self.owner, self.joiner, self.timed, self.phase, self.cancelled, self.expired, tuple(self.subtasks),
                tuple(self.told), self.bindings)


class Machine:
    """A program that runs. `fault` is None, or the kind, the task and its place."""

    def __init__(self, program):
        self.program, self.steps, self.fault = program, 0, None
        self.tasks, self.scopes = [Task(None, len(program.functions) - 1, [], True)], []
        self.standing_scopes, self.standing_tasks = 0, 1

    def copy(self):
        it = type(self).__new__(type(self))
        it.__dict__.update(self.__dict__)
        it.tasks, it.scopes = [x.copy() for x in self.tasks], [x.copy() for x in self.scopes]
        return it

    def key(self):
        """Returns what tells this state from others with the same future."""
        return self.fault, tuple(x.key() for x in self.tasks), tuple(x.key() for x in self.scopes)

    # ---- events

    def event(self, line):
        """Does an event, and returns whether it counts."""
        if self.fault:
            return False
        word, number = line.split(" ")
        return {"step": self.step, "interrupt": self.interrupt, "expire": self.expire}[word](int(number))

    def step(self, number):
        if number >= len(self.tasks) or not self.can_step(self.tasks[number]):
            return False
        self.steps += 1
        task = self.tasks[number]
        kind = None if self.is_closing(task) else self.misuse(task)
        if kind:
            self.fault = (kind, number, task.pc)
        else:
            self.perform(number, task, self.instruction(task))
        return True

    def interrupt(self, number):
        if number >= len(self.tasks) or not self.tasks[number].lives():
            return False
        self.tasks[number].flag = True
        return True

    def expire(self, number):
        if number >= len(self.scopes) or not self.may_expire(self.scopes[number]):
            return False
        self.scopes[number].expired = True
        self.cancel(self.scopes[number])
        return True

    # ---- rules of scopes

    def may_expire(self, scope):
        return scope.timed and not scope.expired and scope.phase in ("opened", "attempted")

    def cancel(self, scope):
        if not scope.cancelled:
            scope.cancelled = True
            for number in scope.subtasks:
                if self.tasks[number].lives():
                    self.tasks[number].flag = True

    def is_started(self, scope):
        """Does a subtask that is forked now run?"""
        return not scope.cancelled

    def is_heard(self, scope):
        """Is the joiner told of an end that comes now?"""
        return not scope.cancelled

    def is_to_cancel(self, scope):
        """Does the joiner cancel the scope after these ends?"""
        kind, bound = scope.joiner.kind, scope.joiner.bound
        failed = sum(it[1] == "failed" for it in scope.told)
        values = [it[2] for it in scope.told if it[1] == "success"]
        if kind in ("all", "awaitok"):
            return failed > 0
        if kind == "atleast":
            return any(value >= bound for value in values)
        return {"any": len(values) > 0, "awaitall": False, "failed": failed >= bound, "success": len(values) >= bound}[kind]

    def result(self, scope):
        """Returns what the joiner gives: ("ok", operands that are pushed) or ("failed", code)."""
        kind = scope.joiner.kind
        failures = [it[2] for it in scope.told if it[1] == "failed"]
        if kind in ("all", "awaitok") and failures:
            return "failed", failures[0]
        if kind == "any":
            values = [it[2] for it in scope.told if it[1] == "success"]
            return ("ok", [values[0]]) if values else ("failed", failures[0] if failures else -1)
        return "ok", [len(scope.subtasks)] if scope.joiner.gives_count() else []

    def any_lives(self, scope):
        return any(self.tasks[number].lives() for number in scope.subtasks)

    def outcome(self, task, scope):
        """Returns the outcome of a `join` now, or None if the task waits."""
        if scope.expired:
            return "timeout"
        if scope.cancelled or not self.any_lives(scope):
            return "result"
        return "interrupted" if task.flag else None

    def after_interrupted(self, task, scope):
        task.flag, scope.phase = False, "attempted"

    def may_join(self, scope):
        return scope.phase in ("opened", "attempted")

    def may_read(self, op, scope):
        """Is the phase one in which subtasks may be read?"""
        return scope.phase == "joined" and (self.program.profile == 2 or not scope.expired)

    def state(self, number):
        """Returns the state of a subtask: S, F or U."""
        task = self.tasks[number]
        return ("S" if task.end[0] == "success" else "F") if task.heard else "U"

    def environment(self, task):
        """Returns the bindings in force for a task, the innermost first."""
        own = tuple(entry[1:] for entry in reversed(task.entries) if entry[0] == "key")
        return own + (() if task.scope is None else self.scopes[task.scope].bindings)

    def value_of(self, task, key):
        """Returns the value of a key, or None if it isn't bound."""
        return next((value for bound, value in self.environment(task) if bound == key), None)

    # ---- where a task is, and whether it can step

    def instruction(self, task):
        code = self.program.functions[task.function].code
        return code[task.pc] if task.pc < len(code) else None

    def held(self, task, slot):
        """Returns the scope that a slot holds as the task's own, if it does."""
        held = task.slots[slot]
        return self.scopes[held[1]] if held and held[0] == "own" else None

    def is_closing(self, task):
        it = self.instruction(task)
        scope = self.held(task, it.args[0]) if it and it.op == "close" else None
        return scope is not None and scope.phase == "closing"

    def can_step(self, task):
        return task.lives() and self.waits_for(task) is None

    def waits_for(self, task):
        """Returns what a living task waits for, ("join" or "close", scope), or None if it can step."""
        it = self.instruction(task)
        if it is None or it.op not in ("join", "close"):
            return None
        scope = self.held(task, it.args[0])
        if scope is None:
            return None
        if it.op == "close":
            waits = scope.phase == "closing" and self.any_lives(scope)
        else:
            waits = not self.misuse(task) and self.outcome(task, scope) is None
        return (it.op, task.slots[it.args[0]][1]) if waits else None

    # ---- misuse

    def misuse(self, task):
        """Returns the kind of the fault that the next step of a task is, or None."""
        it = self.instruction(task)
        if it is None or self.is_operand_fault(task, it):
            return "Operand"
        held = task.slots[it.args[0]] if it.op in (*OF_A_SCOPE, "get", "except") else None
        return (self.wrong_thread(it, held) or self.not_now(task, it, held) or self.unnested(task, it, held)
                or self.unbound(task, it))

    def is_operand_fault(self, task, it):
        pops = self.program.functions[it.args[1]].args if it.op == "fork" else POPS.get(it.op, 0)
        height = len(task.stack) - pops
        if height < 0 or height + PUSHES.get(it.op, 0) > MOST_OPERANDS:
            return True
        return not self.has_slots(task, it) or not self.has_loop(task, it) or not self.has_room(task, it)

    def has_slots(self, task, it):
        if it.op in OF_A_SCOPE or it.op == "cancelled":
            held = task.slots[it.args[0]]
            if held is None or held[0] == "sub":
                return False
            is_bad_join = it.op == "join" and held[0] == "own" and not self.is_formed(task, it, self.scopes[held[1]])
            return not is_bad_join and not (it.op == "fork" and it.args[2] is not None and task.slots[it.args[2]])
        if it.op in OF_A_SUBTASK:
            held = task.slots[it.args[0]]
            return held is not None and held[0] == "sub"
        return it.op != "open" or task.slots[it.args[0]] is None

    def is_formed(self, task, it, scope):
        """Has a `join` the targets that the joiner and the timeout ask for, and room for what is pushed?"""
        _, failed, late, _ = it.args
        room = scope.joiner.kind == "awaitall" or len(task.stack) < MOST_OPERANDS
        return room and (failed is not None) == scope.joiner.can_fail() and (late is not None) == scope.timed

    def has_loop(self, task, it):
        match = self.program.functions[task.function].match
        if it.op == "times":
            return task.pc in match and len(task.loops) < MOST_LOOPS
        return it.op != "next" or bool(task.loops) and match[task.loops[-1][0]] == task.pc

    def has_room(self, task, it):
        if it.op in ("open", "bind") and len(task.entries) == MOST_ENTRIES:
            return False
        standing, born = {"fork": (self.standing_tasks, len(self.tasks)),
                          "open": (self.standing_scopes, len(self.scopes))}.get(it.op, (0, 0))
        return standing < MOST_STANDING and born < MOST_BORN

    def wrong_thread(self, it, held):
        return "WrongThread" if it.op in OF_A_SCOPE and held[0] == "parent" else None

    def not_now(self, task, it, held):
        if it.op in ("get", "except"):
            right = "S" if it.op == "get" else "F"
            scope = self.scopes[self.tasks[held[1]].scope]
            return None if self.may_read(it.op, scope) and self.state(held[1]) == right else "IllegalState"
        scope = self.scopes[held[1]] if it.op in OF_A_SCOPE else None
        wrong = (it.op == "fork" and scope.phase != "opened" or it.op == "join" and not self.may_join(scope)
                 or it.op == "close" and self.is_unjoined(scope) or it.op in READS and not self.may_read(it.op, scope))
        return "IllegalState" if wrong else None

    def is_unjoined(self, scope):
        return scope.phase == "opened" and len(scope.subtasks) > 0

    def unnested(self, task, it, held):
        entries = task.entries
        if it.op == "fork":
            later = entries[entries.index(("scope", held[1])):]
            wrong = any(entry[0] == "key" for entry in later)
        elif it.op == "close":
            wrong = entries[-1] != ("scope", held[1])
        elif it.op == "unbind":
            wrong = not entries or entries[-1][0] == "scope"
        else:
            wrong = it.op in ("ret", "fail") and len(entries) > 0
        return "Structure" if wrong else None

    def unbound(self, task, it):
        return "Unbound" if it.op == "read" and self.value_of(task, it.args[0]) is None else None

    # ---- instructions

    def perform(self, number, task, it):
        task.pc += 1
        named = {"except": "except_", "open": "open_"}.get(it.op, it.op)
        getattr(self, f"do_{named}")(number, task, *it.args)

    def do_push(self, _, task, value):
        task.stack.append(value)

    def do_pop(self, _, task):
        task.stack.pop()

    def do_dup(self, _, task):
        task.stack.append(task.stack[-1])

    def do_swap(self, _, task):
        task.stack[-2:] = task.stack[:-3:-1]

    def do_load(self, _, task, local):
        task.stack.append(task.locals[local])

    def do_store(self, _, task, local):
        task.locals[local] = task.stack.pop()

    def two(self, task, operation):
        b, a = task.stack.pop(), task.stack.pop()
        task.stack.append(wrapped(operation(a, b)))

    def do_add(self, _, task):
        self.two(task, lambda a, b: a + b)

    def do_sub(self, _, task):
        self.two(task, lambda a, b: a - b)

    def do_mul(self, _, task):
        self.two(task, lambda a, b: a * b)

    def do_lt(self, _, task):
        self.two(task, lambda a, b: int(a < b))

    def do_eq(self, _, task):
        self.two(task, lambda a, b: int(a == b))

    def do_div(self, _, task, zero):
        b, a = task.stack.pop(), task.stack.pop()
        if b == 0:
            task.pc = zero
        else:
            task.stack.append(quotient(a, b))

    def do_jmp(self, _, task, target):
        task.pc = target

    def do_jz(self, _, task, target):
        if task.stack.pop() == 0:
            task.pc = target

    def do_times(self, _, task, most):
        turns, place = min(max(task.stack.pop(), 0), most), task.pc - 1
        if turns == 0:
            task.pc = self.program.functions[task.function].match[place] + 1
        else:
            task.loops.append((place, turns))

    def do_next(self, _, task):
        place, turns = task.loops.pop()
        if turns > 1:
            task.loops.append((place, turns - 1))
            task.pc = place + 1

    def do_open_(self, number, task, slot, joiner, timed):
        scope = Scope(number, joiner, timed, self.environment(task))
        scope.fresh = self.is_fresh(task)
        task.slots[slot] = ("own", len(self.scopes))
        task.entries.append(("scope", len(self.scopes)))
        self.scopes.append(scope)
        self.standing_scopes += 1

    def is_fresh(self, task):
        """Has the task never had a binding in force, one that it inherited included?"""
        return not task.bound and (task.scope is None or self.scopes[task.scope].fresh)

    def do_fork(self, _, task, slot, function, handle):
        place = task.slots[slot][1]
        scope, args = self.scopes[place], self.program.functions[function].args
        arguments = task.stack[len(task.stack) - args:]
        del task.stack[len(task.stack) - args:]
        scope.subtasks.append(len(self.tasks))
        if handle is not None:
            task.slots[handle] = ("sub", len(self.tasks))
        self.tasks.append(Task(place, function, arguments, self.is_started(scope)))
        self.standing_tasks += 1

    def do_join(self, _, task, slot, failed, late, interrupted):
        scope = self.held(task, slot)
        outcome = self.outcome(task, scope)
        if outcome == "interrupted":
            self.after_interrupted(task, scope)
            task.pc = interrupted
            return
        scope.phase = "joined"
        if outcome == "timeout":
            task.pc = late
            return
        kind, given = self.result(scope)
        if kind == "failed":
            task.stack.append(given)
            task.pc = failed
        else:
            task.stack.extend(given)

    def do_close(self, _, task, slot):
        scope = self.held(task, slot)
        self.cancel(scope)
        if self.close_waits(scope):
            scope.phase = "closing"
            task.pc -= 1
            return
        scope.phase = "closed"
        place = task.slots[slot][1]
        task.entries.remove(("scope", place))
        self.standing_scopes -= 1
        self.standing_tasks -= len(scope.subtasks)
        gone = [("own", place), *(("sub", it) for it in scope.subtasks)]
        task.slots = [None if held in gone else held for held in task.slots]

    def close_waits(self, scope):
        return self.any_lives(scope)

    def do_cancelled(self, _, task, slot):
        task.stack.append(int(self.scopes[task.slots[slot][1]].cancelled))

    def do_case(self, _, task, slot, good, bad):
        state = self.state(task.slots[slot][1])
        task.pc = {"S": good, "F": bad}.get(state, task.pc)

    def do_get(self, _, task, slot):
        task.stack.append(self.tasks[task.slots[slot][1]].end[1])

    def do_except_(self, _, task, slot):
        self.do_get(_, task, slot)

    def do_tally(self, _, task, slot, state):
        task.stack.append(sum(self.state(it) == state for it in self.scopes[task.slots[slot][1]].subtasks))

    def do_total(self, _, task, slot):
        subtasks = self.scopes[task.slots[slot][1]].subtasks
        task.stack.append(wrapped(sum(self.tasks[it].end[1] for it in subtasks if self.state(it) == "S")))

    def do_forget(self, _, task, slot):
        task.slots[slot] = None

    def do_bind(self, _, task, key):
        task.entries.append(("key", key, task.stack.pop()))
        task.bound = True

    def do_unbind(self, _, task):
        task.entries.pop()

    def do_read(self, _, task, key):
        task.stack.append(self.value_of(task, key))

    def do_bound(self, _, task, key):
        task.stack.append(int(self.value_of(task, key) is not None))

    def do_orelse(self, _, task, key):
        other, value = task.stack.pop(), self.value_of(task, key)
        task.stack.append(other if value is None else value)

    def do_interrupted(self, _, task):
        task.stack.append(int(task.flag))
        task.flag = False

    def do_ret(self, number, task):
        self.finish(number, task, ("success", task.stack.pop()))

    def do_fail(self, number, task):
        self.finish(number, task, ("failed", task.stack.pop()))

    def finish(self, number, task, end):
        task.end = end
        scope = None if task.scope is None else self.scopes[task.scope]
        task.heard = scope is None or self.is_heard(scope)
        if scope is not None and task.heard:
            scope.told.append((number, *end))
            if self.is_to_cancel(scope):
                self.cancel(scope)

    # ---- its state, in the lines of `look view`

    def root_end(self):
        """Returns the first line: the state of the run."""
        if self.fault:
            kind, number, pc = self.fault
            return f"fault {kind} task {number} in {self.program.functions[self.tasks[number].function].name} at {pc}"
        end = self.tasks[0].end
        return f"{end[0]} {end[1]}" if end else "running"

    def task_words(self, task):
        if task.lives():
            waits = self.waits_for(task)
            return f"waits {waits[0]} {waits[1]}" if waits else "ready"
        if not task.started:
            return "never-started"
        return f"{'' if task.heard else 'unheard '}{task.end[0]} {task.end[1]}"

    def view(self):
        """Returns the lines of `look view`."""
        lines = [self.root_end(), f"steps {self.steps}"]
        for number, task in enumerate(self.tasks):
            under = "-" if task.scope is None else task.scope
            place = f"task {number} under {under} in {self.program.functions[task.function].name} at {task.pc}"
            lines.append(f"{place} {self.task_words(task)}{' interrupted' if task.flag else ''}")
        for number, scope in enumerate(self.scopes):
            marks = [("timed", scope.timed), ("cancelled", scope.cancelled), ("expired", scope.expired),
                     ("may-expire", self.may_expire(scope))]
            said = "".join(f" {word}" for word, holds in marks if holds)
            lines.append(f"scope {number} of {scope.owner} {scope.joiner.words} {scope.phase}{said}")
        return lines


def after(text, events, machine=Machine):
    """Returns the machine that has run a text through these events."""
    it = machine(stack_code.program(text))
    for line in events:
        it.event(line)
    return it
