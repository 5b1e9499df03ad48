"""Reads traces, outside texts, and traces in the short notation."""
import re

NUMBER = re.compile(rb"0|[1-9][0-9]*")
MOST_NUMBER = 4_294_967_295
EVENTS = (b"step", b"interrupt", b"expire")
OUTSIDE_EVENTS = (b"interrupt", b"expire")
MOST_OUTSIDE = 4096


class TraceFault(Exception):
    """A fault of a trace or an outside text. `said` has the members of `trace_fault`."""

    def __init__(self, fault, line):
        super().__init__(fault)
        self.said = {"fault": fault, "line": line}


def number(word, line):
    if not NUMBER.fullmatch(word) or int(word) > MOST_NUMBER:
        raise TraceFault("T2", line)
    return int(word)


def lines(text):
    """Yields the lines and their numbers. What is left without a newline is T3."""
    *whole, rest = text.split(b"\n")
    yield from enumerate(whole, 1)
    if rest:
        raise TraceFault("T3", None)


def event(line, raw):
    words = raw.split(b" ")
    if len(words) != 2 or words[0] not in EVENTS or not words[1]:
        raise TraceFault("T1", line)
    return words[0].decode(), number(words[1], line), 1


def read(text):
    """Returns the events of a trace: a word, a number, and how often the event comes."""
    return [event(line, raw) for line, raw in lines(text)]


def outside_line(line, raw):
    words = raw.split(b" ")
    if line > MOST_OUTSIDE or len(words) != 4 or not all(words) or words[0] != b"at" or words[2] not in OUTSIDE_EVENTS:
        raise TraceFault("T1", line)
    return number(words[1], line), words[2].decode(), number(words[3], line)


def read_outside(text):
    """Returns the lines of an outside text: when one is due, its word, and its number."""
    return [outside_line(line, raw) for line, raw in lines(text)]


def short(words):
    """Yields the events of a short trace."""
    for word in words.split():
        if word[0] in "ix":
            yield "interrupt" if word[0] == "i" else "expire", int(word[1:]), 1
            continue
        tasks, count = word.split("*")
        first, _, last = tasks.partition("..")
        for task in range(int(first), int(last or first) + 1):
            yield "step", task, int(count)


def parted(joined):
    """Returns the text and the trace that one text has."""
    text = []
    lines_ = joined.split(b"\n")
    for at, line in enumerate(lines_):
        if line == b"%":
            return b"".join(it + b"\n" for it in text), b"\n".join(lines_[at + 1 :])
        text.append(line)
    return joined, b""
