"""Finds every end that a program can reach, over all schedules.  FILE [options]

The search is exhaustive over the machine of plain_machine.py. Local instructions run on at once: what they do depends on
no other task, and no other task sees it. It prints each end of the root task or fault, and below them how many states it
saw. The status is 5 if it stopped before it had seen all.

With `--names`, states that differ only by the birth numbers of tasks and scopes count as one: a task is then known by the
place of its `fork` in its scope, and a scope by the place of its `open` in its owner. A fault may then name another task.

With `--kept` it prints the number of states that `look ends` keeps: it tries own steps first, takes those that follow an event at
once, and often counts states once that differ only by birth numbers.

`--fine` gives the end of a subtask the steps that it has in JDK 25: it looks whether its scope is cancelled and sets its
state, tells the joiner, marks the scope, interrupts its siblings in turn, and ends. A `join` that finds both a
result and the flag of its owner may then have either outcome.
"""
import argparse
import collections

from checks.models import plain_machine
from checks.models import stack_code


class FineMachine(plain_machine.Machine):
    """A machine on which the end of a subtask, and a cancel, are several steps.

    `pending` has for each task the steps that are left of its end or its close, the next one first.
    """

    def __init__(self, program):
        super().__init__(program)
        self.pending, self.canceller, self.prefers_interrupt = {}, None, False

    def copy(self):
        it = super().copy()
        it.pending = {number: steps[:] for number, steps in self.pending.items()}
        return it

    def key(self):
        return (*super().key(), tuple((number, *steps) for number, steps in sorted(self.pending.items()) if steps))

    def can_step(self, task):
        number = next(n for n, it in enumerate(self.tasks) if it is task)
        return bool(self.pending.get(number)) or super().can_step(task)

    def any_lives(self, scope):
        """A thread lives until its last step."""
        return any(self.tasks[it].lives() or self.pending.get(it) for it in scope.subtasks)

    def step(self, number):
        if self.pending.get(number):
            self.micro(number, self.pending[number].pop(0))
            return True
        self.canceller = number
        return super().step(number)

    def finish(self, number, task, end):
        if task.scope is None:
            super().finish(number, task, end)
        else:
            task.end = end
            self.pending[number] = [("look", task.scope)]

    def micro(self, number, what):
        """Does one of the steps of an end or a cancel."""
        kind, place = what
        todo, task = self.pending[number], self.tasks[number]
        if kind == "interrupt":
            if self.tasks[place].lives() or self.pending.get(place):
                self.tasks[place].flag = True
        elif kind == "look":
            if self.is_heard(self.scopes[place]):
                todo += [("state", place), ("tell", place), ("end", place)]
        elif kind == "state":
            task.heard = True
        elif kind == "tell":
            scope = self.scopes[place]
            scope.told.append((number, *task.end))
            if self.is_to_cancel_now(scope):
                todo.insert(0, ("mark", place))
        elif kind == "mark":
            self.cancel_by(number, self.scopes[place])

    def is_to_cancel_now(self, scope):
        """Does the last end make the joiner cancel its scope?"""
        before = scope.told.pop()
        was = self.is_to_cancel(scope)
        scope.told.append(before)
        return not was and self.is_to_cancel(scope)

    def cancel_by(self, number, scope):
        if scope.cancelled:
            return
        scope.cancelled = True
        others = [it for it in scope.subtasks if it != number and (self.tasks[it].lives() or self.pending.get(it))]
        self.pending.setdefault(number, [])[:0] = [("interrupt", it) for it in others]

    def cancel(self, scope):
        self.cancel_by(self.canceller, scope)

    def outcome(self, task, scope):
        outcome = super().outcome(task, scope)
        return "interrupted" if outcome == "result" and self.prefers_interrupt and task.flag else outcome

    def may_prefer_interrupt(self, task):
        """Is the task at a join that may find the flag first?"""
        it = self.instruction(task)
        return task.flag and it is not None and it.op == "join" and not self.misuse(task)


class NamedMachine(plain_machine.Machine):
    """A machine whose key has tasks and scopes in the order of a walk from the root, instead of their birth numbers."""

    def names(self):
        """Returns the numbers of the tasks in the order of the walk, and those of the scopes."""
        tasks, scopes, owned = [0], [], {}
        for number, scope in enumerate(self.scopes):
            owned.setdefault(scope.owner, []).append(number)
        for task in tasks:
            for number in owned.get(task, []):
                scopes.append(number)
                tasks += self.scopes[number].subtasks
        return tasks, scopes

    def renamed(self, tasks, scopes):
        """Returns this machine with the tasks and scopes in this order."""
        task = {old: new for new, old in enumerate(tasks)}
        scope = {None: None, **{old: new for new, old in enumerate(scopes)}}
        it = self.copy()
        it.tasks, it.scopes = [it.tasks[old] for old in tasks], [it.scopes[old] for old in scopes]
        for one in it.tasks:
            one.scope = scope[one.scope]
            one.entries = [(word, scope[rest[0]]) if word == "scope" else (word, *rest) for word, *rest in one.entries]
            one.slots = [held and (held[0], task[held[1]] if held[0] == "sub" else scope[held[1]]) for held in one.slots]
        for one in it.scopes:
            one.owner, one.subtasks = task[one.owner], [task[old] for old in one.subtasks]
            one.told = [(task[old], *end) for old, *end in one.told]
        if it.fault:
            it.fault = (it.fault[0], task[it.fault[1]], it.fault[2])
        return it

    def key(self):
        return plain_machine.Machine.key(self.renamed(*self.names()))


class KeptMachine(NamedMachine):
    """A machine whose key has only what a later event can read, if the program reads no scoped value."""

    def key(self):
        it = self.renamed(*self.names())
        for task in it.tasks:
            if not task.lives():
                task.pc, task.function, task.flag = 0, 0, False
                task.stack, task.locals, task.loops, task.entries, task.slots = [], [], [], [], []
        for scope in it.scopes:
            scope.bindings = ()
        return plain_machine.Machine.key(it)


def ready(machine):
    return [number for number, task in enumerate(machine.tasks) if machine.can_step(task)]


def run_local(machine):
    """Runs local instructions of every task on, as far as there are any."""
    for number, task in enumerate(machine.tasks):
        while task.lives() and not machine.fault:
            it = machine.instruction(task)
            if it is None or it.op not in plain_machine.LOCAL or machine.misuse(task):
                break
            machine.step(number)


def children(machine, is_expiring, interrupts):
    """Yields each state that one event leads to, with the interrupts that are left."""
    for number in ready(machine):
        it = machine.copy()
        it.step(number)
        yield it, interrupts
        if isinstance(machine, FineMachine) and machine.may_prefer_interrupt(machine.tasks[number]):
            it = machine.copy()
            it.prefers_interrupt = True
            it.step(number)
            it.prefers_interrupt = False
            yield it, interrupts
    for number, scope in enumerate(machine.scopes):
        if is_expiring and machine.may_expire(scope):
            it = machine.copy()
            it.expire(number)
            yield it, interrupts
    for number, task in enumerate(machine.tasks):
        if interrupts and task.lives() and not task.flag:
            it = machine.copy()
            it.interrupt(number)
            yield it, interrupts - 1


def ends(program, machine=plain_machine.Machine, is_expiring=False, interrupts=0, most=1_000_000):
    """Returns the ends and faults, how many states were seen, and whether these are all."""
    first = machine(program)
    run_local(first)
    seen, waiting, found = {(first.key(), interrupts)}, [(first, interrupts)], set()
    while waiting:
        at, left = waiting.pop()
        if at.fault or at.tasks[0].end:
            found.add(at.root_end())
            continue
        for it, fewer in children(at, is_expiring, left):
            run_local(it)
            key = (it.key(), fewer)
            if key not in seen:
                if len(seen) == most:
                    return found, len(seen), False
                seen.add(key)
                waiting.append((it, fewer))
    return found, len(seen), True


# ---- what `look ends` keeps

JUMPS = ("jmp", "jz", "div")
READ = ("read", "bound", "orelse")
OWN = (*plain_machine.LOCAL, *READ, "bind", "unbind", "forget")
OWN_STEPS = 100  # no more of them follow an event at once


def own_task(machine):
    """Returns the first task whose next step is its own and no fault, or None. A jump back is not its own."""
    for number, task in enumerate(machine.tasks):
        it = machine.instruction(task) if task.lives() and not machine.fault else None
        is_back = it is not None and it.op in JUMPS and it.args[0] <= task.pc
        if it is not None and it.op in OWN and not is_back and not machine.misuse(task):
            return number
    return None


def take_own_steps(machine):
    """Takes own steps, as many as `look ends` takes at once."""
    for _ in range(OWN_STEPS):
        own = own_task(machine)
        if own is None:
            return
        machine.step(own)


def tried(machine, is_expiring, left):
    """Yields what the events that `look ends` goes on with lead to, in its order."""
    own = own_task(machine)
    steps = ready(machine) if own is None else [own]
    for number in steps if not machine.fault else []:
        it = machine.copy()
        it.step(number)
        yield it, left
    if machine.fault or own is not None:
        return
    for number, task in enumerate(machine.tasks):
        if left and task.lives():
            it = machine.copy()
            it.interrupt(number)
            yield it, left - 1
    for number, scope in enumerate(machine.scopes):
        if is_expiring and machine.may_expire(scope):
            it = machine.copy()
            it.expire(number)
            yield it, left


def kept_children(machine, is_expiring, left):
    """Yields the states that `look ends` keeps after these events: those after the own steps that follow."""
    for it, fewer in tried(machine, is_expiring, left):
        take_own_steps(it)
        yield it, fewer


def kept_key(machine):
    """Returns what tells a state that is kept from others: of a fault no more than what is printed."""
    return machine.root_end() if machine.fault else machine.key()


def searched(program, machine, is_expiring, interrupts, most):
    """Returns how many states a search in the order of their discovery keeps, and whether one is a fault; None if too many."""
    first = machine(program)
    seen, waiting, is_faulty = {(kept_key(first), interrupts)}, collections.deque([(first, interrupts)]), False
    while waiting:
        at, left = waiting.popleft()
        is_faulty = is_faulty or at.fault is not None
        for it, fewer in kept_children(at, is_expiring, left):
            key = (kept_key(it), fewer)
            if key not in seen:
                if len(seen) == most:
                    return None
                seen.add(key)
                waiting.append((it, fewer))
    return len(seen), is_faulty


def kept(program, is_expiring=False, interrupts=0, most=1_000_000):
    """Returns how many states `look ends` keeps, or None if these are more than `most`.

    States that differ only by birth numbers count as one, unless the program reads a scoped value or one of them is a fault.
    """
    if not any(it.op in READ for function in program.functions for it in function.code):
        found = searched(program, KeptMachine, is_expiring, interrupts, most)
        if found is None or not found[1]:
            return found and found[0]
    found = searched(program, plain_machine.Machine, is_expiring, interrupts, most)
    return found and found[0]


def main():
    reads = argparse.ArgumentParser(description="Finds every end that a program can reach.")
    reads.add_argument("file")
    reads.add_argument("--expiries", action="store_true", help="scopes with a timeout may expire at any time")
    reads.add_argument("--interrupts", type=int, default=0, help="the most interrupts from outside (0)")
    reads.add_argument("--most", type=int, default=1_000_000, help="the states after which it stops (1000000)")
    reads.add_argument("--fine", action="store_true", help="the end of a subtask has the steps that it has in JDK 25")
    reads.add_argument("--names", action="store_true", help="states that differ only by birth numbers count as one")
    reads.add_argument("--kept", action="store_true", help="prints only how many states `look ends` keeps")
    asked = reads.parse_args()
    with open(asked.file) as file:
        program = stack_code.program(file.read())
    if asked.kept:
        print(kept(program, asked.expiries, asked.interrupts, asked.most))
        return 0
    machine = FineMachine if asked.fine else NamedMachine if asked.names else plain_machine.Machine
    found, states, are_all = ends(program, machine, asked.expiries, asked.interrupts, asked.most)
    print("".join(f"{it}\n" for it in sorted(found)), end="")
    print(f"{states} states, all schedules" if are_all else f"stopped at {states} states, not all schedules")
    return 0 if are_all else 5
