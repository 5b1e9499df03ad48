"""Tests what is written of recordings at the limits of a text, by recordings that are made up here. No JDK is needed."""
import os
import tempfile

from checks.models import plain_machine
from checks.models import stack_code
import recording
import texts
from named import Shown, without_names


def lines(tasks, events, joiner="all", timed="", values=()):
    site = '"site": "A.java:1|main|"'
    made = [f'{{"recording": "A.java:1|main|"}}', f'{{"scope": 0, "owner": 0, "joiner": "{joiner}"{timed}}}', f'{{"task": 0, {site}, "started": true}}']
    made += [f'{{"task": {n}, "parent": 0, "site": "A.java:2|main|ask", "started": true, "told": {"true" if told else "false"}, "flag": {"false" if told else "true"}}}'
             for n, told in enumerate(tasks, 1)]
    return made + events + list(values)


def op(kind, task, line, **members):
    more = "".join(f', "{name}": {value}' if isinstance(value, int) else f', "{name}": "{value}"' for name, value in members.items())
    called = "ask" if kind == "fork" else ""
    return f'{{"do": "{kind}", "task": {task}, "site": "A.java:{line}|main|{called}"{more}}}'


def fan(count, distinct=True):
    events = [op("open", 0, 1, scope=0)] + [op("fork", 0, 2, scope=0, subtask=n) for n in range(1, count + 1)]
    events += [op("end", n, 2, way="ret", value=n if distinct else 1) for n in range(1, count + 1)]
    events += [op("join", 0, 3, scope=0, way="ok"), op("close", 0, 4, scope=0), op("end", 0, 1, way="ret")]
    return lines([True] * count, events, values=[f'{{"value": {n}, "type": "Quote"}}' for n in range(1, count + 1)])


def read(content):
    with tempfile.TemporaryDirectory() as room:
        path = os.path.join(room, "A_1-1.rec")
        with open(path, "w") as file:
            file.write("\n".join(content) + "\n")
        return recording.read(path)


def ended(it):
    """Replays a recording on the machine in Python. Returns its end, whether each event counts, and the text."""
    text, trace, made = texts.replayed(it)
    machine = plain_machine.Machine(stack_code.program(text))
    counts = [machine.event(event) for event in trace.splitlines()]
    return machine.root_end(), all(counts), text


class Tests:
    def __init__(self):
        self.count, self.failures = 0, []

    def demand(self, what, holds, said=""):
        self.count += 1
        if not holds:
            self.failures.append(what)
            print(f"  FAILS: {what}: {said}")

    def loops(self):
        """Ten thousand forks of one line are one loop; three are written one by one; twenty thousand are two loops."""
        text, _, _ = texts.replayed(read(fan(10_000)))
        self.demand("10,000 forks of one line fit", text.count("times 10000") == 1 and len(text) < 3000, len(text))
        end, counts, text = ended(read(fan(500)))
        self.demand("a loop of 500 forks is replayed", (end.split()[0], counts) == ("success", True) and text.count("times 500") == 1, (end, counts, len(text)))
        text, _, _ = texts.replayed(read(fan(20_000)))
        self.demand("20,000 forks are two loops", text.count("times 10000") == 2, len(text))
        end, counts, text = ended(read(fan(3)))
        self.demand("3 forks are no loop", (end.split()[0], counts) == ("success", True) and "times" not in text, text)
        text, _ = texts.searched([read(fan(50))])
        self.demand("a search doesn't need the values of subtasks that nobody reads", "times 50" in text, text)

    def ends(self):
        """What wasn't recorded is said to be so."""
        events = [op("open", 0, 1, scope=0), op("fork", 0, 2, scope=0, subtask=1), op("fork", 0, 2, scope=0, subtask=2),
                  op("end", 1, 2, way="ret", value=1), op("end", 2, 2, way="fail", value=2), op("join", 0, 3, scope=0, way="ok", value=1),
                  op("close", 0, 4, scope=0), op("end", 0, 1, way="ret", value=1)]
        values = ['{"value": 1, "type": "String", "text": "\\"a\\""}', '{"value": 2, "type": "InterruptedException", "line": "A.java:9", "kind": "interrupt"}']
        it = read(lines([True, False], events, "any", values=values))
        text, _ = texts.searched([it])
        shown = Shown(text)
        self.demand("a value is named", shown.end("success 1001") == 'success "a"', shown.values)
        unknown = [it for it in shown.values.values() if "if it isn't cancelled" in it]
        self.demand("the end of a cancelled task without the cancel isn't recorded", unknown and all(it.endswith(", not recorded") for it in unknown), shown.values)
        self.demand("a line is named", "A.java:3" in shown.lines.values(), shown.lines)
        self.demand("names are comments only", ";=" not in without_names(text) and len(without_names(text).splitlines()) == len(text.splitlines()))
        self.demand("several values in one number are named", shown.end("success 10011001") == 'success "a" with "a"')

    def bound_before(self):
        """The root reads a value that was bound before its scope was opened, and binds another one itself."""
        events = [op("open", 0, 1, scope=0), op("fork", 0, 2, scope=0, subtask=1), op("end", 1, 2, way="ret", value=1),
                  op("read", 0, 3, key=0, value=2), op("bind", 0, 4, key=1, value=1), op("read", 0, 4, key=1, value=1), op("unbind", 0, 4),
                  op("join", 0, 5, scope=0, way="ok"), op("read", 0, 6, key=0, value=2), op("close", 0, 7, scope=0), op("end", 0, 1, way="ret")]
        it = read(lines([True], events, values=['{"value": 1, "type": "Quote"}', '{"value": 2, "type": "Tenant"}']))
        end, counts, text = ended(it)
        held = (text.count("bind 0"), text.count("bind 1"), text.index("bind 0") < text.index("open s0") < text.index("bind 1"))
        self.demand("the root reads what was bound before", (end.split()[0], counts, held) == ("success", True, (1, 1, True)), (end, counts, text))
        text, _ = texts.searched([it])
        self.demand("a search doesn't need bindings", "bind" not in text and "read" not in text, text)

    def joined(self):
        """Two recordings fill in what one of them didn't record."""
        def one(way):
            told = way == "ret"
            return read(lines([True], [op("open", 0, 1, scope=0), op("fork", 0, 2, scope=0, subtask=1), op("end", 1, 2, way=way, value=1),
                                       op("join", 0, 3, scope=0, way="ok" if told else "failed", value=0 if told else 1), op("close", 0, 4, scope=0),
                                       op("end", 0, 1, way="ret" if told else "fail", value=0 if told else 1)],
                              values=['{"value": 1, "type": "String", "text": "\\"a\\""}' if told else '{"value": 1, "type": "Down", "line": "A.java:9"}']))
        from checks.models import all_ends
        apart, _ = texts.searched([one("ret")])
        both, _ = texts.searched([one("ret"), one("fail")])
        found = [sorted(all_ends.ends(stack_code.program(it), is_expiring=True)[0]) for it in (apart, both)]
        self.demand("one recording has one end", [it.split()[0] for it in found[0]] == ["success"], found)
        self.demand("two recordings have both ends", [it.split()[0] for it in found[1]] == ["failed", "success"], found)


def test():
    tests = Tests()
    for part in (tests.loops, tests.ends, tests.bound_before, tests.joined):
        part()
    print(f"the texts: {tests.count} demands, {len(tests.failures)} fail")
    return len(tests.failures)
