"""Reads what the agent wrote of one outermost scope: a file of lines of JSON, one for each note, scope, task, event and value."""
import json
import os
from dataclasses import dataclass, field
from typing import NamedTuple, Optional


class Site(NamedTuple):
    """A place of the Java program: `Orders.java:36`, the method around it, and the method that the lambda there calls."""
    line: str
    method: str
    called: str

    @classmethod
    def of(cls, words):
        return cls(*words.split("|"))


class Value(NamedTuple):
    """A value by its type, its text if the agent wrote texts, and the line that made it, if it is an exception."""
    type: str
    text: Optional[str]
    line: Optional[str]
    is_interrupt: bool


@dataclass(eq=False)
class Scope:
    birth: int
    owner: int
    joiner: str
    timed: bool = False
    canceller: Optional[str] = None
    count: int = 0
    subtasks: list = field(default_factory=list)
    forks: dict = field(default_factory=dict)  # how many, by line

    def is_custom(self):
        return self.joiner.startswith("custom")

    def is_until(self):
        return self.joiner == "until" or self.is_custom()

    def words(self):
        """The joiner in a text. A predicate or a joiner of the application is taken to count ends."""
        if not self.is_until():
            return self.joiner
        return f"until {self.canceller} {self.count}" if self.canceller else "until failed 65536"


@dataclass(eq=False)
class Op:
    kind: str
    task: int
    site: Site
    scope: Optional[Scope]
    subtask: Optional["Task"]
    way: Optional[str]
    fault: Optional[str]
    answer: Optional[str]
    value: int
    key: Optional[int]
    times: int
    at: int  # the number of its event


@dataclass(eq=False)
class Task:
    birth: int
    parent: Optional[Scope]
    site: Site
    started: bool
    lives: bool
    told: bool
    flag: bool
    where: Optional[str]
    pending: Optional[str]
    pending_scope: Optional[int]
    pending_site: Optional[Site]
    ops: list = field(default_factory=list)
    place: int = 0  # how many tasks the same line forked in the same scope before
    found: Optional[Op] = None

    def end(self):
        return self.ops[-1] if self.ops and self.ops[-1].kind == "end" else None


class Recording:
    """Events are ("do", Op), ("closed", task), ("interrupt", task) and ("expire", scope), the last three by birth numbers."""

    def __init__(self, path):
        self.path = path
        self.name = os.path.basename(path)[:-len(".rec")]
        self.site, self.unfinished, self.notes = None, None, []
        self.tasks, self.scopes, self.events, self.values = [], [], [], {}
        with open(path) as file:
            for line in file:
                self.take(json.loads(line))
        if self.site is None:
            raise ValueError("it has no line that begins a recording")
        self.place()
        self.take_results()

    def take(self, it):
        kind = next(iter(it))
        if kind == "recording":
            self.site, self.unfinished = Site.of(it["recording"]), it.get("unfinished")
        elif kind == "note":
            self.notes.append(it["note"])
        elif kind == "scope":
            self.scopes.append(Scope(it["scope"], it["owner"], it["joiner"], it.get("timed", False), it.get("canceller"), it.get("canceller_count", 0)))
        elif kind == "task":
            self.tasks.append(self.task(it))
        elif kind == "value":
            self.values[it["value"]] = Value(it["type"], it.get("text"), it.get("line"), it.get("kind") == "interrupt")
        elif kind == "do":
            op = self.op(it)
            self.tasks[op.task].ops.append(op)
            self.events.append(("do", op))
        else:
            self.events.append((kind, it[kind]))

    def task(self, it):
        parent = self.scopes[it["parent"]] if "parent" in it else None
        made = Task(it["task"], parent, Site.of(it["site"]), it.get("started", False), it.get("lives", False), it.get("told", False),
                    it.get("flag", False), it.get("where"), it.get("pending"), it.get("pending_scope"),
                    Site.of(it["pending_site"]) if "pending_site" in it else None)
        if parent:
            parent.subtasks.append(made)
        return made

    def op(self, it):
        return Op(it["do"], it["task"], Site.of(it["site"]), self.scopes[it["scope"]] if "scope" in it else None,
                  self.tasks[it["subtask"]] if "subtask" in it else None, it.get("way"), it.get("fault"), it.get("is"),
                  it.get("value", 0), it.get("key"), it.get("times", 1), len(self.events))

    def place(self):
        """Counts the forks of each line in each scope: this tells tasks of one line apart, in every recording alike."""
        for scope in self.scopes:
            for task in scope.subtasks:
                task.place = scope.forks.get(task.site, 0)
                scope.forks[task.site] = task.place + 1

    def take_results(self):
        """Takes the failure of a joiner of the application as a result: in a text such a joiner counts ends, and can't fail."""
        for kind, op in self.events:
            if kind == "do" and op.kind == "join" and op.way == "failed" and op.scope.is_until():
                op.way, op.value = "ok", 0
                self.notes.append(f"left out: the failure of a joiner of the application at {op.site.line}")
                end = self.tasks[0].end()
                if end and end.way == "fail" and [it for it in self.tasks[0].ops if it.kind == "join"][-1] is op:
                    end.way, end.value = "ret", 0

    def ended_by_cancel(self, task):
        """Did an interrupt that a cancel caused end the task? Without the cancel it would have gone on."""
        end = task.end()
        value = self.values.get(end.value) if end else None
        return bool(end and not task.told and task.parent and end.way == "fail" and task.flag and value and value.is_interrupt)

    def fault(self):
        """Returns the misuse that ends the recording, or None."""
        return next((op for kind, op in self.events if kind == "do" and op.fault), None)


def read(path):
    return Recording(path)
