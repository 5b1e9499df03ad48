"""Joins recordings of one handler: for each task a tree, in which a node is an operation and leads to what came after each outcome.

One recording is a tree without branches. Where recordings of the same task differ though nothing that the rules know has decided it
(the program's own decision), the node is a choice.
"""
from dataclasses import dataclass, field
from typing import Optional

ASKS = ("state", "get", "except")
KEYS = ("read", "bound", "orelse")
BY_PLACE = 8  # more forks of one line in one scope are taken as alike when recordings are joined


@dataclass(eq=False)
class Node:
    """`kind` is that of an operation, or cut (the task ends if a cancel interrupts it), choice, or stop (nothing more was recorded)."""
    kind: str
    members: list  # (recording, task, op)
    scope: Optional["JoinedScope"] = None
    subtask: Optional["JoinedTask"] = None
    next: dict = field(default_factory=dict)  # by outcome

    def op(self):
        return self.members[0][2]

    def site(self):
        return self.op().site


@dataclass(eq=False)
class JoinedScope:
    members: dict  # recording -> Scope

    def one(self):
        """Returns the scope of the recording that tells most: one in which its joiner has cancelled."""
        scopes = list(self.members.values())
        return next((it for it in scopes if it.canceller), scopes[0])

    def forks_most(self):
        return max(len(it.subtasks) for it in self.members.values())


@dataclass(eq=False)
class JoinedTask:
    members: list  # (recording, task)
    parent: Optional[JoinedScope] = None
    tree: Optional[Node] = None

    def task(self):
        return self.members[0][1]


class Options:
    """`is_lean`: without scoped values and questions that steer nothing. `alike`: tasks of one line are one."""

    def __init__(self, is_lean=False, is_alike=False):
        self.is_lean, self.is_alike = is_lean, is_alike


def steering(members):
    """Returns the lines at which some recording of the task was answered yes."""
    return {op.site for _, task in members for op in task.ops if op.kind in ("cancelled", "interrupted") and op.answer == "true"}


def kept(task, options, steers):
    """Returns the operations of a task without those that steer nothing."""
    if not options.is_lean:
        return task.ops
    ops, last_join = [], max((n for n, op in enumerate(task.ops) if op.kind == "join"), default=-1)
    for n, op in enumerate(task.ops):
        if op.fault is None and (op.kind in KEYS or op.kind in ("bind", "unbind")):
            continue
        if op.kind in ("cancelled", "interrupted") and op.answer == "false" and op.site not in steers \
                and (op.kind == "cancelled" or n > last_join):
            continue
        if ops and op.kind in ("cancelled", "interrupted") and ops[-1].kind == op.kind and ops[-1].site == op.site and ops[-1].answer == "false":
            ops.pop()
        ops.append(op)
    return ops


class Joining:
    """Builds the trees. A group is the members of one task: each a recording, its task and the operations that are kept."""

    def __init__(self, options):
        self.options = options

    def root(self, recordings):
        made = JoinedTask([(it, it.tasks[0]) for it in recordings])
        return self.built(made)

    def built(self, joined):
        """Builds the tree of a task, and those of its subtasks."""
        steers = steering(joined.members)
        group = [(recording, task, kept(task, self.options, steers)) for recording, task in joined.members if task.started]
        found, work = {}, []
        scopes, subtasks = {}, {}

        def put(node, outcome, members, at):
            work.append((node, outcome, members, at))

        if group:
            put(None, None, group, 0)
        while work:
            before, outcome, members, at = work.pop()
            node = self.node(members, at, scopes, subtasks)
            if before is None:
                found["tree"] = node
            else:
                before.next[outcome] = node
            for out, rest, step in self.after(node, members, at):
                put(node, out, rest, at + step)
        joined.tree = found.get("tree")
        for it in dict.fromkeys(subtasks.values()):
            self.built(it)
        return joined

    def node(self, members, at, scopes, subtasks):
        cut = [it for it in members if at < len(it[2]) and it[2][at].kind == "end" and it[0].ended_by_cancel(it[1])]
        if cut:
            return Node("cut", [(recording, task, ops[at]) for recording, task, ops in cut])
        kinds = {}
        for it in members:
            kinds.setdefault(self.signature(it, at, scopes, subtasks), []).append(it)
        if len(kinds) > 1:
            node = Node("choice", [(recording, task, ops[at]) for recording, task, ops in members if at < len(ops)])
            node.groups = sorted(kinds.values(), key=len, reverse=True)
            return node
        if at >= len(members[0][2]):
            return Node("stop", [(recording, task, ops[-1] if ops else None) for recording, task, ops in members])
        node = Node(members[0][2][at].kind, [(recording, task, ops[at]) for recording, task, ops in members])
        self.connect(node, scopes, subtasks)
        return node

    @staticmethod
    def signature(member, at, scopes, subtasks):
        recording, _, ops = member
        if at >= len(ops):
            return ("stop",)
        op = ops[at]
        if op.kind == "end":
            return ("end",)
        scope = scopes.get((recording, op.scope)) if op.kind not in ("open", "fork") else None
        subtask = subtasks.get((recording, op.subtask)) if op.kind in ASKS else None
        return (op.kind, op.site, scope, subtask, op.key, op.way if op.kind in ASKS else None)

    def connect(self, node, scopes, subtasks):
        """Finds the scope and the subtask of a node, or makes them at an open or a fork."""
        recording, _, op = node.members[0]
        if op.kind == "open":
            node.scope = JoinedScope({recording: op.scope for recording, _, op in node.members})
            for recording, _, op in node.members:
                scopes[recording, op.scope] = node.scope
        elif op.kind == "fork" and op.fault is None:
            node.scope = scopes.get((recording, op.scope))
            node.subtask = self.forked(node, subtasks)
        else:
            node.scope, node.subtask = scopes.get((recording, op.scope)), subtasks.get((recording, op.subtask))

    def forked(self, node, subtasks):
        members = [(recording, op.subtask) for recording, _, op in node.members]
        scope = node.members[0][2].scope
        same = scope.forks[node.site()]
        if self.options.is_alike or len(members) > 1 and same > BY_PLACE:
            made = subtasks.get((node.scope, node.site()))
            if made is None:
                all_of = [(recording, it) for recording, _, op in node.members for it in op.scope.subtasks if it.site == node.site()]
                made = subtasks[node.scope, node.site()] = JoinedTask(all_of, node.scope)
        else:
            made = JoinedTask(members, node.scope)
        for recording, task in members:
            subtasks[recording, task] = made
        return made

    @staticmethod
    def after(node, members, at):
        """Yields each outcome of a node, with the members that had it, and how many operations further they are."""
        if node.kind == "cut":
            rest = [it for it in members if not (at < len(it[2]) and it[2][at].kind == "end" and it[0].ended_by_cancel(it[1]))]
            if rest:
                yield None, rest, 0
        elif node.kind == "choice":
            for number, group in enumerate(node.groups):
                yield number, group, 0
        elif node.kind not in ("end", "stop"):
            outcomes = {}
            for it in members:
                outcomes.setdefault(outcome(it[2][at]), []).append(it)
            for out, rest in outcomes.items():
                yield out, rest, 1


def outcome(op):
    """Returns what the rules leave open at an operation."""
    if op.fault:
        return "fault"
    if op.kind == "join":
        return op.way
    if op.kind in ("cancelled", "interrupted", "state"):
        return op.answer
    return None
