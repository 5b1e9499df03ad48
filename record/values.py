"""Gives the values of recordings numbers for a text, and the numbers names.

Integers from 1 to 999 are themselves if their text was recorded. Equal texts of a type have one number. Other values are known by
their type and the task that first gave them, so that they are the same in each recording of a handler.
"""
PLAIN, THROWN, UNKNOWN, UNRECORDED = 1000, 3000, 5000, 7000
IN_TIME, LATE, LAST = 20_000, 30_000, 40_000  # what a root ends with that counts subtasks
PART = 10_000  # several values in one number: the last one in the lowest digits
SMALL = ("Integer", "Long", "Short", "Byte")


NOT_RECORDED, GUESS = ", not recorded", ", counting ends that weren't recorded"


def ascii(text, most=100):
    text = "".join(it if " " <= it <= "~" else "?" for it in text)
    return text if len(text) <= most else text[:most - 3] + "..."


class Values:
    def __init__(self):
        self.numbers, self.names = {}, {}  # by what a value is; by number
        self.next = {}  # the next number of each kind
        self.origins = {}  # of a recording: value -> the operation that first had it

    def origin(self, recording, value):
        if recording not in self.origins:
            found = {}
            for kind, op in recording.events:
                if kind == "do" and op.value and op.value not in found:
                    found[op.value] = op
            self.origins[recording] = found
        return self.origins[recording].get(value)

    def fresh(self, base, name):
        if (base, name) not in self.numbers:
            number = self.next.get(base, base + 1)
            while number in self.names:
                number += 1
            self.next[base] = number + 1
            self.numbers[base, name], self.names[number] = number, ascii(name)
        return self.numbers[base, name]

    def number(self, recording, value):
        """Returns the number of a value of a recording."""
        if not value:
            return self.fresh(PLAIN, "null")
        it = recording.values[value]
        if it.text is not None and it.type in SMALL and it.text.isdigit() and 0 < int(it.text) < PLAIN:
            return int(it.text)
        if it.line is not None or it.type.endswith(("Exception", "Error")):
            text = f"{it.type}: {it.text}" if it.text is not None else it.type
            return self.fresh(THROWN, text + (f" at {it.line}" if it.line else ""))
        if it.text is not None:
            return self.fresh(PLAIN, it.text)
        return self.fresh(PLAIN, self.described(recording, value, it.type))

    def described(self, recording, value, kind):
        op = self.origin(recording, value)
        if op is None:
            return kind
        task = recording.tasks[op.task]
        if op.kind != "end" or task.parent is None:
            return f"{kind} of {op.site.line}"
        where = f"{task.site.called} at {task.site.line}" if task.site.called else task.site.line
        return f"{kind} of {where}" + (f", fork {task.place + 1}" if task.place else "")

    def unknown(self, name):
        return self.fresh(UNKNOWN, name + NOT_RECORDED)

    def unrecorded(self, name):
        return self.fresh(UNRECORDED, name + NOT_RECORDED)

    def counted(self, base, count, line, is_guess):
        """Names what a root ends with that counts subtasks."""
        how, before = ("result of join", "") if base == IN_TIME else ("TimeoutException of join", " before")
        self.names[base + count] = f"{how} at {line}, {count} subtask{'' if count == 1 else 's'} succeeded{before}{GUESS if is_guess else ''}"


def named(number, names):
    """Returns the name of a number; several values in one number are named one after the other."""
    if number in names:
        return names[number]
    if number < PART:
        return str(number)
    parts = []
    while number:
        number, part = divmod(number, PART)
        parts.append(named(part, names))
    return " with ".join(reversed(parts))
