"""Which misuse an instruction of a run is: the five kinds, in their order."""
from program import CAN_FAIL, MOST_LOOPS, MOST_OPEN, MOST_OPERANDS, SCOPE_SLOT, STACK, SUBTASK_SLOT

MOST_COUNTING, MOST_BORN = 65_536, 1_000_000


class Misuse(Exception):
    """A misuse; its argument is the kind."""


def need(holds, kind):
    if not holds:
        raise Misuse(kind)


def is_scope(it):
    return hasattr(it, "joiner")


def is_subtask(it):
    return hasattr(it, "parent")


def is_binding(it):
    return hasattr(it, "key")


def is_full(born, counting):
    return counting >= MOST_COUNTING or len(born) >= MOST_BORN


def check(machine, task, it):
    """Raises the first misuse that an instruction would be."""
    need(it is not None, "Operand")
    pops, pushes = STACK[it.word]
    height = len(task.stack) - (pops if it.word != "fork" else machine.program.pops(it))
    need(height >= 0 and height + pushes <= MOST_OPERANDS, "Operand")
    if it.word in OTHER_CHECKS:
        OTHER_CHECKS[it.word](machine, task, it)
    elif it.word in SCOPE_SLOT:
        check_scope(machine, task, it, task.slots[it.operands[0]])
    elif it.word in SUBTASK_SLOT:
        check_subtask(machine, task, it, task.slots[it.operands[0]])
    elif it.word == "cancelled":
        need(is_scope(task.slots[it.operands[0]]), "Operand")
    elif it.word == "unbind":
        need(task.open and is_binding(task.open[-1]), "Structure")
    elif it.word in ("ret", "fail"):
        need(not task.open, "Structure")
    elif it.word == "read":
        need(task.value_of(it.operands[0]) is not None, "Unbound")


def check_times(machine, task, _):
    need(machine.match(task, task.place) is not None and len(task.loops) < MOST_LOOPS, "Operand")


def check_next(machine, task, _):
    need(task.loops and machine.match(task, task.loops[-1][0]) == task.place, "Operand")


def check_bind(_, task, __):
    need(len(task.open) < MOST_OPEN, "Operand")


def check_open(machine, task, it):
    need(len(task.open) < MOST_OPEN and task.slots[it.operands[0]] is None, "Operand")
    need(not is_full(machine.scopes, machine.counting["scopes"]), "Operand")


OTHER_CHECKS = {"times": check_times, "next": check_next, "bind": check_bind, "open": check_open}


def check_scope(machine, task, it, scope):
    """Tests an instruction on a scope that the task has to own: all kinds in their order."""
    need(is_scope(scope), "Operand")
    if it.word == "fork":
        need(it.operands[2] is None or task.slots[it.operands[2]] is None, "Operand")
        need(not is_full(machine.tasks, machine.counting["tasks"]), "Operand")
    if it.word == "join" and scope.owner is task:
        need(scope.joiner.kind == "awaitall" or len(task.stack) < MOST_OPERANDS, "Operand")
        need((it.operands[1] is not None) == (scope.joiner.kind in CAN_FAIL), "Operand")
        need((it.operands[2] is not None) == scope.timed, "Operand")
    need(scope.owner is task, "WrongThread")
    if it.word == "fork":
        need(scope.phase == "opened", "IllegalState")
        need(not any(map(is_binding, task.open[task.open.index(scope) :])), "Structure")
    elif it.word == "join":
        need(scope.phase in ("opened", "attempted"), "IllegalState")
    elif it.word == "close":
        need(scope.phase != "opened" or not scope.subtasks, "IllegalState")
        need(task.open[-1] is scope, "Structure")
    else:
        need(scope.is_readable(machine.profile), "IllegalState")


def check_subtask(machine, _, it, subtask):
    """Tests an instruction on a subtask."""
    need(is_subtask(subtask), "Operand")
    if it.word in ("get", "except"):
        need(subtask.parent.is_readable(machine.profile), "IllegalState")
        need(subtask.state == ("S" if it.word == "get" else "F"), "IllegalState")
