"""Wrong models, each with one wrong rule, and outputs of the player with one wrong word. The cases have to notice each."""
import collections

import cases
from checks.models import stack_code
from checks.models.plain_machine import Machine
from player import MODES, first_difference

CASES = 900   # drawn; the rows with a scope come on top
ENOUGH = 3    # in a part, cases that notice a model


class StartsInCancelled(Machine):
    """A fork in a cancelled scope starts its subtask."""

    def is_started(self, scope):
        return True


class TellsLateEnds(Machine):
    """A cancelled scope is told of ends."""

    def is_heard(self, scope):
        return True


class CancelsDownward(Machine):
    """A cancel goes on to the scopes that the subtasks own."""

    def cancel(self, scope):
        super().cancel(scope)
        for other in self.scopes:
            if other.owner in scope.subtasks and not other.cancelled and other.phase != "closed":
                self.cancel(other)


class CancelsWithoutInterrupt(Machine):
    """A cancel sets no flag."""

    def cancel(self, scope):
        scope.cancelled = True


class CancelsTwice(Machine):
    """A cancel of a cancelled scope sets the flags again."""

    def cancel(self, scope):
        scope.cancelled = False
        super().cancel(scope)


class NeverCancels(Machine):
    """No joiner cancels its scope."""

    def is_to_cancel(self, scope):
        return False


class InterruptFirst(Machine):
    """An interrupt goes before a result."""

    def outcome(self, task, scope):
        return "interrupted" if task.flag and not scope.expired else super().outcome(task, scope)


class ResultFirst(Machine):
    """A result goes before a timeout."""

    def outcome(self, task, scope):
        return "result" if not self.any_lives(scope) else super().outcome(task, scope)


class JoinsAll(Machine):
    """A join waits for the subtasks of a cancelled scope."""

    def outcome(self, task, scope):
        outcome = super().outcome(task, scope)
        return None if outcome == "result" and self.any_lives(scope) else outcome


class KeepsFlag(Machine):
    """An interrupted join leaves the flag set."""

    def after_interrupted(self, task, scope):
        scope.phase = "attempted"


class JoinedByInterrupt(Machine):
    """After an interrupted join subtasks may be read."""

    def may_read(self, op, scope):
        return scope.phase == "attempted" or super().may_read(op, scope)


class CloseGoesOn(Machine):
    """A close waits for nobody."""

    def close_waits(self, scope):
        return False


class CloseWithoutCancel(Machine):
    """A close interrupts nobody."""

    def do_close(self, number, task, slot):
        was, self.held(task, slot).cancelled = self.held(task, slot).cancelled, True
        scope = self.held(task, slot)
        super().do_close(number, task, slot)
        scope.cancelled = was


class CloseInterrupted(Machine):
    """An interrupt ends the wait of a close."""

    def waits_for(self, task):
        waits = super().waits_for(task)
        return None if waits and waits[0] == "close" and task.flag else waits

    def close_waits(self, scope):
        return super().close_waits(scope) and not self.tasks[scope.owner].flag


class LastFailure(Machine):
    """`any` fails with its last failure."""

    def result(self, scope):
        kind, given = super().result(scope)
        failures = [it[2] for it in scope.told if it[1] == "failed"]
        return (kind, failures[-1]) if kind == "failed" and failures else (kind, given)


class CountsEnds(Machine):
    """The number of subtasks leaves out those that are unavailable."""

    def result(self, scope):
        kind, given = super().result(scope)
        return (kind, [len(scope.told)]) if kind == "ok" and scope.joiner.gives_count() else (kind, given)


class NoMinusOne(Machine):
    """`any` of no completion fails with 0."""

    def result(self, scope):
        return ("failed", 0) if super().result(scope) == ("failed", -1) else super().result(scope)


class OneMore(Machine):
    """`until failed n` and `until success n` cancel one end later."""

    def is_to_cancel(self, scope):
        kind = {"failed": "failed", "success": "success"}.get(scope.joiner.kind)
        count = sum(it[1] == kind for it in scope.told)
        return super().is_to_cancel(scope) and count != scope.joiner.bound


class MoreThan(Machine):
    """`until atleast v` cancels at a value above v."""

    def is_to_cancel(self, scope):
        return super().is_to_cancel(scope) and not (scope.joiner.kind == "atleast" and all(it[2] <= scope.joiner.bound for it in scope.told))


class NoInheritance(Machine):
    """A subtask inherits no binding."""

    def environment(self, task):
        return tuple(entry[1:] for entry in reversed(task.entries) if entry[0] == "key")


class OutermostFirst(Machine):
    """A read finds the outermost binding."""

    def environment(self, task):
        return super().environment(task)[::-1]


class ExpiresAfterJoin(Machine):
    """An expiry counts after a join, too."""

    def may_expire(self, scope):
        return super().may_expire(scope) or scope.timed and scope.phase == "joined" and not scope.cancelled


class ExpiresOnlyOpened(Machine):
    """An expiry doesn't count after an interrupted join."""

    def may_expire(self, scope):
        return super().may_expire(scope) and scope.phase == "opened"


class ExpiresWithoutCancel(Machine):
    """An expiry marks the scope and cancels nothing."""

    def expire(self, number):
        was = [task.flag for task in self.tasks], [scope.cancelled for scope in self.scopes]
        counts = super().expire(number)
        for task, flag in zip(self.tasks, was[0]):
            task.flag = flag
        for scope, cancelled in zip(self.scopes, was[1]):
            scope.cancelled = cancelled
        return counts


class ForksAfterJoin(Machine):
    """A fork after an interrupted join is no misuse."""

    def not_now(self, task, it, held):
        is_fork = it.op == "fork" and self.scopes[held[1]].phase == "attempted"
        return None if is_fork else super().not_now(task, it, held)


class ClosesUnjoined(Machine):
    """A close after a fork without a join is no misuse."""

    def is_unjoined(self, scope):
        return False


class ClosesForkedOnly(Machine):
    """A close of a scope without a fork asks for a join."""

    def is_unjoined(self, scope):
        return scope.phase == "opened"


class ClosesAnyScope(Machine):
    """A close of a scope that isn't the innermost is no misuse."""

    def unnested(self, task, it, held):
        return None if it.op == "close" else super().unnested(task, it, held)


class ForksInBinding(Machine):
    """A fork with other bindings is no misuse."""

    def unnested(self, task, it, held):
        return None if it.op == "fork" else super().unnested(task, it, held)


class AnybodyForks(Machine):
    """A subtask may fork in the scope above."""

    def wrong_thread(self, it, held):
        return None if it.op == "fork" else super().wrong_thread(it, held)

    def unnested(self, task, it, held):
        return None if it.op == "fork" and held[0] == "parent" else super().unnested(task, it, held)


class AsksWithoutClearing(Machine):
    """`interrupted` leaves the flag set."""

    def do_interrupted(self, _, task):
        task.stack.append(int(task.flag))


MODELS = [it for it in Machine.__subclasses__() if it.__module__ == __name__]


def no_flags(printed):
    return [it.removesuffix(" interrupted") for it in printed]


def no_last_event(printed):
    """What was printed without its last event."""
    heads = [at for at, it in enumerate(printed) if it.startswith("after ")]
    return printed[:heads[-1]] if heads else printed


def all_count(printed):
    return [it.removesuffix(" idle") for it in printed]


def no_cancels(printed):
    return [it.removesuffix(" cancelled") for it in printed]


PRINTED = {"the player shows no flag": no_flags, "the player stops one event early": no_last_event,
           "the player says that each event counts": all_count, "the player shows no cancelled scope": no_cancels}


def name_of(model):
    return model.__doc__.rstrip(".")


def notices(counts, case, printed):
    """Counts the models that this case notices, which the right machine agrees with."""
    program = stack_code.program(case.text)
    if first_difference(Machine(program), case, printed) is not None:
        return
    for model in MODELS:
        if counts[name_of(model)] < ENOUGH and first_difference(model(program), case, printed) is not None:
            counts[name_of(model)] += 1
    for name, turn in PRINTED.items():
        if counts[name] < ENOUGH and first_difference(Machine(program), case, turn(printed)) is not None:
            counts[name] += 1


def noticed(player, mode, part):
    counts = collections.Counter()
    shown = player.printed(part, f"join={mode[0]}", f"threads={mode[1]}")
    for case, printed in zip(part, shown, strict=True):
        notices(counts, case, printed)
    return counts


def run(pool, player, asked):
    """Plays cases, and returns how many wrong models none of them notices."""
    rows, _ = cases.of_rows()
    found = [it for given in cases.draw_parts(asked.seed, CASES) for it in cases.of_draws_from(*given)]
    found += [it for it in rows if "open s" in it.text]
    size = 60
    given = [(player, MODES[at // size % len(MODES)], found[at:at + size]) for at in range(0, len(found), size)]
    counts = collections.Counter()
    for part in pool.map(noticed, *zip(*given)):
        counts.update(part)
    names = [*map(name_of, MODELS), *PRINTED]
    for name in names:
        print(f"{name}: {'noticed' if counts[name] else 'NOT NOTICED'}")
    missed = sum(not counts[name] for name in names)
    print(f"{len(names) - missed} of {len(names)} planted models were noticed, by {len(found)} cases")
    return missed
