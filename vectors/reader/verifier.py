"""The verifier: typestates, edges, and the causes V1 to V16."""
import collections

from budgets import budgets
from program import CAN_FAIL, GIVES_NUMBER, MOST_LOOPS, MOST_OPEN, MOST_OPERANDS, NO_FALL, SCOPE_SLOT, SLOTS, STACK, SUBTASK_SLOT, labels

# `entries` are Open and Bind, the innermost last. `loops` are pairs: a `times`, and how many entries were open there.
State = collections.namedtuple("State", "height entries loops slots")
Open = collections.namedtuple("Open", "slot joiner timed phase")
Bind = collections.namedtuple("Bind", "key")
# What a slot holds. `scope` is the slot of the scope, and `known` is "S", "F" or None.
Own, Lent = "own", "lent"
Sub = collections.namedtuple("Sub", "scope known")


class Refused(Exception):
    """A refusal. `said` has the members of `verdict`."""

    def __init__(self, cause, function, place):
        super().__init__(cause)
        self.said = {"accepted": False, "cause": f"V{cause}", "function": function, "place": place}


def verify(program):
    """Returns the verdict on a program."""
    found = []
    try:
        for number, function in enumerate(program.functions):
            is_main = number + 1 == len(program.functions)
            reached = Flow(program, function, is_main).run()
            found.append(budgets(function, reached, found))
            over = found[-1].over()
            if over:
                raise Refused(over, function.name, len(function.code))
    except Refused as refused:
        return refused.said
    return {"accepted": True, "budgets": [it.said() for it in found]}


class Flow:
    """Follows the typestates of one function from place to place."""

    def __init__(self, program, function, is_main):
        self.program, self.function, self.code = program, function, function.code
        self.match = function.matches()
        self.around = [self.loops_around(place) for place in range(len(self.code) + 1)]
        self.reached = [[] for _ in range(len(self.code) + 1)]
        self.reached[0].append(State(0, (), (), ((None if is_main else Lent),) + (None,) * (SLOTS - 1)))

    def loops_around(self, place):
        """Returns the places of the `times` whose loops a place is in, the innermost last."""
        return tuple(times for times, next_ in sorted(self.match.items()) if times < place <= next_)

    def run(self):
        """Returns the typestate at each place, or raises the first refusal."""
        for place in range(len(self.code)):
            cause = self.cause(place)
            if cause:
                raise Refused(cause, self.function.name, place)
            for target, state in self.edges(place, self.reached[place][0]):
                if state not in self.reached[target]:
                    self.reached[target].append(state)
        return [it[0] if it else None for it in self.reached]

    def cause(self, place):
        """Returns the lowest cause of a place, or None."""
        if len(self.reached[place]) != 1:
            return 7 if self.reached[place] else 8
        it, state = self.code[place], self.reached[place][0]
        return min(Causes(self, place, it, state).found(), default=None)

    # Where an instruction leads to, whatever its causes are.

    def falls_to(self, place):
        """Returns the places that an instruction leads to without its labels."""
        it = self.code[place]
        found = [] if it.word in NO_FALL else [place + 1]
        if it.word == "times" and place in self.match:
            found.append(self.match[place] + 1)
        return found

    def loops_after(self, place, target, loops):
        """Returns the places of the `times` that are open on the way to a target."""
        it, open_ = self.code[place], tuple(times for times, _ in loops)
        if it.word == "times" and target == place + 1:
            return open_ + (place,)
        return open_[:-1] if it.word == "next" else open_

    # Edges.

    def edges(self, place, state):
        """Yields the targets and the typestates of an instruction without causes."""
        it = self.code[place]
        pops, pushes = self.program.pops(it), STACK[it.word][1]
        after = state._replace(height=state.height - pops + pushes)
        special = getattr(self, f"after_{it.word}", None)
        if special:
            yield from special(place, after, *it.operands)
        else:
            for target in labels(it):
                yield target, after
            if it.word not in NO_FALL:
                yield place + 1, after

    def after_div(self, place, after, zero):
        yield zero, after._replace(height=after.height - 1)
        yield place + 1, after

    def after_times(self, place, after, _):
        yield place + 1, after._replace(loops=after.loops + ((place, len(after.entries)),))
        yield self.match[place] + 1, after

    def after_next(self, place, after):
        yield place + 1, after._replace(loops=after.loops[:-1])

    def after_open(self, place, after, slot, joiner, timed):
        entry = Open(slot, joiner, timed, "opened")
        yield place + 1, with_slot(after, slot, Own)._replace(entries=after.entries + (entry,))

    def after_fork(self, place, after, slot, _, handle):
        yield place + 1, after if handle is None else with_slot(after, handle, Sub(slot, None))

    def after_join(self, place, after, slot, failed, timeout, interrupted):
        joiner = scope_in(after, slot).joiner
        joined = in_phase(after, slot, "joined")
        ok = joined._replace(height=after.height + (joiner.kind in GIVES_NUMBER or joiner.kind == "any"))
        if joiner.kind in ("all", "awaitok"):
            ok = all_known(ok, slot, "S")
        yield place + 1, ok
        if failed is not None:
            yield failed, joined._replace(height=after.height + 1)
        if timeout is not None:
            yield timeout, in_phase(after, slot, "late")
        yield interrupted, in_phase(after, slot, "attempted")

    def after_close(self, place, after, slot):
        slots = tuple(None if at == slot or isinstance(it, Sub) and it.scope == slot else it for at, it in enumerate(after.slots))
        yield place + 1, after._replace(entries=after.entries[:-1], slots=slots)

    def after_case(self, place, after, slot, success, failed):
        yield success, with_slot(after, slot, Sub(after.slots[slot].scope, "S"))
        yield failed, with_slot(after, slot, Sub(after.slots[slot].scope, "F"))
        yield place + 1, with_slot(after, slot, Sub(after.slots[slot].scope, None))

    def after_forget(self, place, after, slot):
        yield place + 1, with_slot(after, slot, None)

    def after_bind(self, place, after, key):
        yield place + 1, after._replace(entries=after.entries + (Bind(key),))

    def after_unbind(self, place, after):
        yield place + 1, after._replace(entries=after.entries[:-1])


def with_slot(state, slot, holds):
    return state._replace(slots=state.slots[:slot] + (holds,) + state.slots[slot + 1 :])


def index_of(state, slot):
    """Returns which entry is the scope in a slot."""
    return next(at for at, it in enumerate(state.entries) if isinstance(it, Open) and it.slot == slot)


def scope_in(state, slot):
    return state.entries[index_of(state, slot)]


def in_phase(state, slot, phase):
    at = index_of(state, slot)
    return state._replace(entries=state.entries[:at] + (state.entries[at]._replace(phase=phase),) + state.entries[at + 1 :])


def all_known(state, slot, known):
    """Returns a typestate that knows the state of each subtask of a scope."""
    return state._replace(slots=tuple(it._replace(known=known) if isinstance(it, Sub) and it.scope == slot else it for it in state.slots))


class Causes:
    """The causes of one place that exactly one typestate reaches."""

    def __init__(self, flow, place, it, state):
        self.flow, self.place, self.it, self.state = flow, place, it, state
        self.profile = flow.program.profile
        self.held = state.slots[it.operands[0]] if it.word in SCOPE_SLOT + SUBTASK_SLOT + ("open", "cancelled") else None
        self.scope = scope_in(state, it.operands[0]) if it.word in SCOPE_SLOT and self.held == Own else None
        if it.word in SUBTASK_SLOT and isinstance(self.held, Sub):
            self.scope = scope_in(state, self.held.scope)

    def found(self):
        """Yields the numbers of the causes, in no order."""
        yield from self.stack()
        yield from self.targets()
        yield from self.loops()
        yield from self.slots()
        if self.scope:
            yield from self.phases()
            yield from self.scope_structure()
        yield from self.structure()
        yield from self.keys()

    def stack(self):
        pops, height = self.flow.program.pops(self.it), self.state.height
        if height < pops:
            yield 1
        if height - pops + STACK[self.it.word][1] > MOST_OPERANDS:
            yield 2
        if self.it.word == "join" and self.scope and self.scope.joiner.kind != "awaitall" and height >= MOST_OPERANDS:
            yield 2

    def targets(self):
        named = labels(self.it)
        for target in named + self.flow.falls_to(self.place):
            if target == len(self.flow.code):
                yield 3
            if self.flow.around[target] != self.flow.loops_after(self.place, target, self.state.loops):
                yield 5
        if any(target <= self.place for target in named):
            yield 4

    def loops(self):
        state, place = self.state, self.place
        if self.it.word == "times" and place not in self.flow.match:
            yield 5
        if self.it.word == "times" and len(state.loops) >= MOST_LOOPS:
            yield 6
        if self.it.word == "next":
            if not state.loops or self.flow.match.get(state.loops[-1][0]) != place:
                yield 5
            elif state != self.flow.reached[state.loops[-1][0] + 1][0]:
                yield 7

    def slots(self):
        word, held = self.it.word, self.held
        if word in SCOPE_SLOT and held not in (Own, Lent):
            yield 9
        if word == "cancelled" and held not in (Own, Lent):
            yield 9
        if word in SUBTASK_SLOT and not isinstance(held, Sub):
            yield 9
        if word == "open" and held is not None:
            yield 10
        if word == "fork" and self.it.operands[2] is not None and self.state.slots[self.it.operands[2]] is not None:
            yield 10
        if word in SCOPE_SLOT and held == Lent:
            yield 11

    def phases(self):
        word, scope = self.it.word, self.scope
        is_readable = scope.phase == "joined" or scope.phase == "late" and self.profile == 2
        if word == "fork" and scope.phase != "opened":
            yield 12
        if word == "join" and scope.phase not in ("opened", "attempted"):
            yield 12
        if word == "close" and scope.phase == "opened":
            yield 12
        if word in ("get", "except", "tally", "total") and not is_readable:
            yield 12
        if word == "get" and self.held.known != "S" or word == "except" and self.held.known != "F":
            yield 12
        if word == "join":
            _, failed, timeout, _ = self.it.operands
            if (failed is not None) != (scope.joiner.kind in CAN_FAIL) or (timeout is not None) != scope.timed:
                yield 16

    def floor(self):
        """Returns how many entries were open at the `times` of the innermost loop."""
        return self.state.loops[-1][1] if self.state.loops else 0

    def scope_structure(self):
        word, entries = self.it.word, self.state.entries
        at = index_of(self.state, self.scope.slot)
        if word == "fork" and any(isinstance(it, Bind) for it in entries[at:]):
            yield 13
        if word == "close" and (at + 1 != len(entries) or at < self.floor()):
            yield 13

    def structure(self):
        word, entries = self.it.word, self.state.entries
        if word == "unbind" and (not entries or not isinstance(entries[-1], Bind) or len(entries) <= self.floor()):
            yield 13
        if word in ("ret", "fail") and entries:
            yield 13
        if word in ("open", "bind") and len(entries) >= MOST_OPEN:
            yield 14

    def keys(self):
        bound = {it.key for it in self.state.entries if isinstance(it, Bind)} | self.flow.function.needs
        if self.it.word == "read" and self.it.operands[0] not in bound:
            yield 15
        if self.it.word == "fork" and not self.flow.program.functions[self.it.operands[1]].needs <= bound:
            yield 15
