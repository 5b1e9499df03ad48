"""Tells a recording: a line for each event, in the words of Java."""
from values import named

WIDTH = 34


class Story:
    def __init__(self, recording, made):
        self.recording, self.values, self.names = recording, made.values, made.values.names

    def lines(self):
        """Yields a line for each event: its number, the task, what it did, and the Java line."""
        for number, (kind, it) in enumerate(self.recording.events, 1):
            if kind == "do":
                task = self.recording.tasks[it.task]
                yield self.line(number, self.name(task), self.did(it, task), it.site.line)
            elif kind == "expire":
                yield self.line(number, f"scope {it}", f"its time is up, which cancels it{self.interrupts(self.recording.scopes[it])}", "")
            elif kind == "interrupt":
                yield self.line(number, self.name(self.recording.tasks[it]), "is interrupted from outside", "")
            else:
                yield self.line(number, self.name(self.recording.tasks[it]), "close is over: no subtask lives", "")
        for task in self.recording.tasks:
            if task.lives and task.end() is None:
                where = f"waits in {task.pending}" if task.pending else "is still at work"
                yield self.line("", self.name(task), where, task.pending_site.line if task.pending else task.where or task.site.line)

    @staticmethod
    def line(number, who, what, site):
        text = f"{number:>5}  {who:<20} {what}"
        return f"{text:<76} {site}".rstrip()

    def name(self, task):
        method = task.site.called or (task.site.method if task.parent is None else f"line {task.site.line.split(':')[-1]}")
        return f"{task.birth} {method}"

    def value(self, value):
        return named(self.values.number(self.recording, value), self.names)

    def interrupts(self, scope):
        return ", and interrupts what lives" if scope.subtasks else ""

    def did(self, op, task):
        if op.fault:
            return f"{self.word(op)}: {op.fault}"
        told = {"open": self.opened, "fork": self.forked, "join": self.joined, "end": self.ended}.get(op.kind)
        again = f" ({op.times} times)" if op.times > 1 else ""
        return told(op, task) if told else f"{self.word(op)}{self.answered(op)}{again}"

    @staticmethod
    def word(op):
        return {"cancelled": "isCancelled()", "state": "state()", "get": "get()", "except": "exception()", "bind": "where(..)",
                "unbind": "the binding ends", "read": "get() of a scoped value", "bound": "isBound()", "orelse": "orElse()",
                "interrupted": "Thread.interrupted()", "close": f"closes scope {op.scope.birth}" if op.scope else "close"}.get(op.kind, op.kind)

    def answered(self, op):
        if op.answer is not None:
            return f" = {op.answer.upper() if op.kind == 'state' else op.answer}"
        return f" = {self.value(op.value)}" if op.value and op.kind not in ("close", "unbind") else ""

    def opened(self, op, _):
        scope = op.scope
        joiner = scope.joiner if not scope.is_custom() else f"its own joiner {scope.joiner[7:]}"
        return f"opens scope {scope.birth}: {joiner}{', with a timeout' if scope.timed else ''}"

    def forked(self, op, _):
        started = "" if op.subtask.started else ", which never starts: the scope is cancelled"
        return f"forks task {self.name(op.subtask)}{started}"

    def joined(self, op, _):
        how = {"ok": "join gives a result", "failed": "join throws FailedException", "timeout": "join throws TimeoutException",
               "interrupted": "join throws InterruptedException"}[op.way]
        is_told = op.way == "failed" or op.way == "ok" and op.scope.joiner == "any"
        return how + (f": {self.value(op.value)}" if op.value and is_told else "")

    def ended(self, op, task):
        if task.parent is None:
            return f"is over: {'success' if op.way == 'ret' else 'failed'}"
        how = f"{'returns' if op.way == 'ret' else 'throws'} {self.value(op.value)}"
        if not task.told:
            return f"{how}, after the cancel: dropped"
        scope = task.parent
        return how + (", and the joiner cancels the scope" if self.cancels(scope, op) else "")

    def cancels(self, scope, op):
        """Is this the end at which the joiner cancelled the scope?"""
        if not scope.canceller:
            return False
        way = "ret" if scope.canceller == "success" else "fail"
        ends = [it for kind, it in self.recording.events if kind == "do" and it.kind == "end" and it.way == way
                and self.recording.tasks[it.task].parent is scope and self.recording.tasks[it.task].told]
        return len(ends) >= scope.count and ends[scope.count - 1] is op
