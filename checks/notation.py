"""The one reader of the short notation in which texts, traces and rows are written, for all checks.

- *Lines*: `a / b` are two lines, and `3 * a, b` are these two three times. A word that a table defines (`! WORD LINES`) stands for
  its lines, `\\1f` for the byte of that code, and a `\\` at the end of a line leaves its newline out.
- *Traces*: `0*5` is five lines `step 0`, `1..3*2` is `1*2 2*2 3*2`, `i0` is `interrupt 0`, and `x0` is `expire 0`. A
  trace of other lines is `trace LINES`.
- *Rows*: an empty line begins a text, `? ASKED` asks, and `= STATUS LINES` answers. `# ---- GROUP` begins a group, and another
  line with `# ` names the row. The first lines of crates/tests_rows/data/tables say more.

This is a second reader of that notation, written apart from crates/tests_rows.
"""
import collections
import itertools
import re

from checks.programs import ROOT

DATA = f"{ROOT}/crates/tests_rows/data"
MOST = 10_000_000  # The lines that a short trace may mean.
LINES = {"i": "interrupt", "x": "expire"}
STEPS = re.compile(r"(\d+)(?:\.\.(\d+))?\*(\d+)")
EVENT = re.compile(r"([ix])(\d+)")

# A row of a table: the number of its answer's line, its group and name, the parts of its text, what is asked, the words that
# the table defines, and the answer as it is written.
Row = collections.namedtuple("Row", "number group name text asked words answer")


def line_bytes(line):
    """Returns the bytes of one line."""
    unended = line.endswith("\\")
    coded = re.sub(r"\\(..)", lambda code: chr(int(code[1], 16)), line[:-1] if unended else line)
    return coded.encode("latin-1") + (b"" if unended else b"\n")


def parts(short, words):
    """Returns lines in the short notation as pairs: how often, and the bytes."""
    found = []
    for part in short.split(" / "):
        count, is_repeated, repeated = part.partition(" * ")
        lines = repeated.split(", ") if is_repeated else words.get(part, part).split(" / ")
        found.append((int(count) if is_repeated else 1, b"".join(map(line_bytes, lines))))
    return found


def whole(pairs):
    """Returns the bytes that pairs stand for."""
    return b"".join(lines * count for count, lines in pairs)


def meant(short, words=None):
    """Returns the bytes of lines in the short notation."""
    return whole(parts(short, words or {}))


def count(word):
    """Returns how many lines a word of a trace means, or 1 if it is no word for steps."""
    steps = STEPS.fullmatch(word)
    return max(0, int(steps[2] or steps[1]) + 1 - int(steps[1])) * int(steps[3]) if steps else 1


def lines_of(word):
    """Returns the lines that a word of a trace means."""
    steps, event = STEPS.fullmatch(word), EVENT.fullmatch(word)
    if steps:
        return "".join(f"step {it}\n" * int(steps[3]) for it in range(int(steps[1]), int(steps[2] or steps[1]) + 1))
    if event:
        return f"{LINES[event[1]]} {event[2]}\n"
    raise ValueError(f"{word!r} is none of the words 0*5, 1..3*2, i0 and x0, with other numbers")


def events(short):
    """Returns the text of a trace that is written short."""
    lines = sum(map(count, short.split()))
    if lines > MOST:
        raise ValueError(f"these words mean {lines} lines, and a trace has at most {MOST}")
    return "".join(map(lines_of, short.split()))


def trace(asked, words=None):
    """Returns the bytes of a trace that a row asks for."""
    if asked.startswith("trace "):
        return meant(asked[len("trace "):], words)
    return events(asked).encode()


def shortened(lines):
    """Returns the lines of a trace as words."""
    found = []
    for line, same in itertools.groupby(lines.splitlines()):
        kind, number = line.split(" ")
        times = len(list(same))
        found += [f"{number}*{times}"] if kind == "step" else [f"{kind[0].replace('e', 'x')}{number}"] * times
    return " ".join(found)


def tables():
    """Returns the names of the tables in crates/tests_rows/data."""
    with open(f"{DATA}/tables") as file:
        return [it for it in file.read().split("\n") if it and not it.startswith("#")]


def table(path):
    """Yields the rows of a table."""
    words, text, asked, group, name = {}, [], "", "", ""
    with open(path, newline="\n") as file:
        lines = file.read().split("\n")
    for number, line in enumerate(lines, 1):
        kind, rest = line[:2], line[2:]
        if not line:
            text = []
        elif kind == "# ":
            group, name = (rest[5:], name) if rest.startswith("---- ") else (group, rest)
        elif kind == "! ":
            word, defined = rest.split(" ", 1)
            words[word] = defined
        elif kind == "? ":
            asked = rest
        elif kind == "= ":
            yield Row(number, group, name, text, asked, words, rest)
        elif line != "#":
            text = text + parts(line, words)


def answer(row):
    """Returns the status of a row's answer, and the bytes that are printed, or None if these don't count."""
    status, is_printed, short = row.answer.partition(" ")
    return int(status), meant(short, row.words) if is_printed else None


def rows(path):
    """Yields of each answer its line, the text, what is asked, the trace, and the answer."""
    for row in table(path):
        text, asked = whole(row.text), row.asked
        if asked.startswith("outside "):
            yield row.number, text, "outside", meant(asked[len("outside "):], row.words), answer(row)
            continue
        is_run = asked not in ("verify", "list", "joined")
        yield row.number, text, "run" if is_run else asked, trace(asked, row.words) if is_run else b"", answer(row)
