"""The names of a text: comments that begin with `;= ` name a function, a line or a value.

All that knows their form is in this file. `look` is given such texts; where it shows a number or a place of the text, `Shown` puts
the name in.
"""
import re

from values import NOT_RECORDED, named

MARK = ";= "


def without_names(text):
    return re.sub(r"[ \t]*;= .*$", "", text, flags=re.M)


class Names:
    """Writes the names of a text."""

    def function(self, name, head, shown, body):
        return f"func {name} {head}  {MARK}{shown}\n{body}\nend"

    def value(self, number, name):
        return f"{MARK}{number} {name}"


class Shown:
    """Reads the names of a text, and puts them into what `look` and `sts` print of it."""

    def __init__(self, text):
        self.values, self.functions, self.lines, self.places = {}, {}, {}, {}
        function, place = None, 0
        for number, line in enumerate(text.splitlines(), 1):
            words, _, name = (it.strip() for it in line.partition(MARK))
            code = words.split(";")[0].split()
            if line.startswith(MARK):
                value, _, shown = name.partition(" ")
                self.values[int(value)] = shown
            elif code[:1] == ["func"]:
                function, place = code[1], 0
                self.functions[function] = name
            elif code and code[0] != "end" and not code[0].endswith(":") and function:
                self.lines[number], self.places[function, place] = name or None, (" ".join(code), name)
                place += 1

    def value(self, number):
        return named(int(number), self.values)

    def function(self, name):
        return self.functions.get(name) or name

    def end(self, words):
        """Names the end of a root: `success 1001`, `failed 3001`. An end that wasn't recorded is neither success nor failure."""
        way, _, number = words.partition(" ")
        if not number.isdigit():
            return words if number != "-1" else f"{way} NoSuchElementException of join: no subtask ended"
        name = self.values.get(int(number), "")
        return f"not recorded: {name[:-len(NOT_RECORDED)]}" if name.endswith(NOT_RECORDED) else f"{way} {self.value(number)}"

    def fault(self, words):
        """Names `fault IllegalState, task 0 in main, line 13: get s1`."""
        m = re.match(r"fault (\w+), task (\d+) in (\w+), line (\d+): (.*)$", words)
        if not m:
            return words
        java = {"Structure": "StructureViolationException", "Unbound": "NoSuchElementException"}.get(m[1], f"{m[1]}Exception")
        return f"{java} of {m[5].split()[0]} at {self.lines.get(int(m[4])) or 'line ' + m[4]}"
