"""Reads a text: its lines, words and operands, with the faults A1 to A8 in their order."""
import re

from program import OPERANDS, Function, Instruction, Joiner, Program

MOST_BYTES = 1_048_576
ALLOWED = bytes([9, 10, 13, *range(32, 127)])
NAME = re.compile(r"[A-Za-z_][A-Za-z0-9_]{0,31}")
NUMBER = re.compile(r"-?[0-9]+")
SLOT = re.compile(r"s([0-9]+)")
LABEL = re.compile(r"([A-Za-z_][A-Za-z0-9_]{0,31}):")

BYTE = range(0, 256)
RANGES = {"value": range(-(2**63), 2**63), "local": BYTE, "key": BYTE, "bound": range(0, 65536)}
COUNT = range(0, 2**32)
MOST_SLOT = 255
MOST_NEEDED_KEY = 15
PROFILES = range(1, 3)


class TextFault(Exception):
    """A fault of a text. `said` has the members of `text_fault`."""

    def __init__(self, **said):
        super().__init__(said)
        self.said = said


class Wrong(Exception):
    """A wrong operand; its argument is the code."""


class Words:
    """The words of a line after the first, which are taken from the left."""

    def __init__(self, words):
        self.words, self.at = words, 0

    def peek(self):
        return self.words[self.at] if self.at < len(self.words) else None

    def take(self):
        word = self.peek()
        if word is None:
            raise Wrong("A4")
        self.at += 1
        return word

    def end(self):
        if self.peek() is not None:
            raise Wrong("A4")

    def number(self, allowed):
        word = self.take()
        if not NUMBER.fullmatch(word) or int(word) not in allowed:
            raise Wrong("A3")
        return int(word)

    def name(self):
        word = self.take()
        if not NAME.fullmatch(word):
            raise Wrong("A4")
        return word

    def one_of(self, *words):
        word = self.take()
        if word not in words:
            raise Wrong("A4")
        return word

    def slot(self):
        found = SLOT.fullmatch(self.take())
        if not found or int(found[1]) > MOST_SLOT:
            raise Wrong("A4")
        return int(found[1])

    def optional(self, word, taken):
        """Returns None for a word that stands for nothing, and otherwise what is taken."""
        if self.peek() == word:
            self.at += 1
            return None
        return taken()

    def joiner(self):
        kind = self.one_of("all", "any", "awaitok", "awaitall", "until")
        if kind != "until":
            return Joiner(kind, None, None)
        what = self.one_of("failed", "success", "atleast")
        return Joiner(kind, what, self.number(RANGES["value"] if what == "atleast" else COUNT))

    def timed(self):
        if self.peek() != "timed":
            return False
        self.at += 1
        return True

    def operand(self, kind):
        if kind in RANGES:
            return self.number(RANGES[kind])
        if kind in ("label", "function"):
            return self.name()
        if kind == "edge":
            return self.optional("-", self.name)
        if kind == "handle":
            return self.optional("_", self.slot)
        if kind == "state":
            return self.one_of("S", "F", "U")
        return {"slot": self.slot, "joiner": self.joiner, "timed": self.timed}[kind]()


class Reader:
    """Reads the lines of a text. Labels and functions stay names until all lines are read."""

    def __init__(self):
        self.profile, self.functions, self.is_inside = 1, [], False
        self.labels, self.lines = [], []  # For each function its labels, and the line of each instruction.

    def line(self, number, raw):
        if raw.translate(None, ALLOWED):
            raise TextFault(fault="A1", line=number)
        words = raw.split(b";")[0].decode().split()
        if not words:
            return
        try:
            self.statement(number, words[0], Words(words[1:]))
        except Wrong as wrong:
            raise TextFault(fault=wrong.args[0], line=number) from None

    def statement(self, number, first, words):
        label = LABEL.fullmatch(first)
        if first == "profile" and number == 1:
            self.profile = words.number(PROFILES)
            words.end()
        elif first == "func":
            self.head(words)
        elif not self.is_inside or not (label or first == "end" or first in OPERANDS):
            raise Wrong("A2")
        elif label:
            self.label(label[1], words)
        elif first == "end":
            words.end()
            self.is_inside = False
        else:
            self.instruction(number, first, words)

    def head(self, words):
        if self.is_inside:
            raise Wrong("A7")
        name, args, needs = words.name(), words.number(BYTE), set()
        if words.peek() is not None:
            words.one_of("needs")
            needs.add(words.number(range(0, MOST_NEEDED_KEY + 1)))
            while words.peek() is not None:
                needs.add(words.number(range(0, MOST_NEEDED_KEY + 1)))
        self.functions.append(Function(name, args, needs))
        self.labels.append({})
        self.lines.append([])
        self.is_inside = True

    def label(self, name, words):
        words.end()
        if name in self.labels[-1]:
            raise Wrong("A6")
        self.labels[-1][name] = len(self.functions[-1].code)

    def instruction(self, number, word, words):
        operands = [words.operand(kind) for kind in OPERANDS[word]]
        words.end()
        self.functions[-1].code.append(Instruction(word, operands))
        self.lines[-1].append(number)

    def resolve(self):
        """Puts a place for each label, and a number for each function that is named."""
        first = {}
        for number, function in enumerate(self.functions):
            first.setdefault(function.name, number)
        for function, places, lines in zip(self.functions, self.labels, self.lines):
            for it, line in zip(function.code, lines):
                for at, kind in enumerate(OPERANDS[it.word]):
                    if kind in ("label", "edge", "function") and it.operands[at] is not None:
                        it.operands[at] = known(first if kind == "function" else places, it.operands[at], line)


def known(names, name, line):
    if name not in names:
        raise TextFault(fault="A5", line=line)
    return names[name]


def read(text):
    """Returns the program of a text, before the program checks."""
    if len(text) > MOST_BYTES:
        raise TextFault(fault="A8", line=0)
    reader, lines = Reader(), text.split(b"\n")
    for number, raw in enumerate(lines, 1):
        reader.line(number, raw)
    if reader.is_inside:
        raise TextFault(fault="A7", line=len(lines))
    reader.resolve()
    return Program(reader.profile, reader.functions)
