"""The table of instructions in LANGUAGE.md, and its rows in crates/sts_code/specs/Shape.antt: words, operands, what is popped and pushed.

`write` writes the first column, the words with their operands.
"""
import functools
import re

from checks.documents.pages import fail, read
from checks.programs import ROOT

PAGE, ROWS = "docs/LANGUAGE.md", "crates/sts_code/specs/Shape.antt"
ROW = re.compile(r'^shape .*? =\s+row \(codes "(\w+)"\)\s+(\[\]|\(.*?∷ \[\]\))\s+(\d) (\d) (\w+)$', re.M | re.S)
# an operand of a row, and how the page writes it: by its kind, or by the name of its label
KINDS = {"Value": "k", "Local": "x", "Turns": "n", "Handle": "h", "Function": "f", "Key": "k", "Rule": "J", "Timed": "[timed]"}
LABELS = {"to": "L", "success": "S", "failed": "F", "timeout": "T", "interrupted": "I"}
STATES = "SFU"
# what the stack loses and gets where no row can say how many
BEFORE, AFTER = {"fork": "arguments of f"}, {"join": "[below](#outcomes-of-a-join)"}


def letters(operand):
    """Returns how the page may write an operand."""
    kind, *rest = operand.split()
    if kind == "InSlot":
        return "h" if rest[0] == "Subtask" else "s"
    if kind == "State":
        return STATES
    return [LABELS[rest[0]] if kind in ("Label", "MaybeLabel") else KINDS[kind]]


@functools.cache
def rows():
    """Returns for each word of an instruction how it is spelled, and how many operands it pops and pushes."""
    found = {}
    for word, operands, pops, pushes, _ in ROW.findall(read(ROWS)):
        spelled = [word]
        for operand in (it.strip() for it in operands.strip("([])").split("∷")):
            if operand:
                spelled = [f"{it} {letter}" for it in spelled for letter in letters(operand)]
        found[word] = spelled, int(pops), int(pushes)
    if len(found) != len(re.findall(r"^shape .* =", read(ROWS), re.M)):
        fail(f"{ROWS} has a row that checks/documents/instructions.py can't read")
    return found


def count(operands):
    """Returns how many operands one side of the column *Stack* has: letters are one each, any other text is one."""
    words = operands.split()
    return len(words) if all(re.fullmatch(r"\w", it) for it in words) else 1


def first(words):
    """Returns the first column of a line with these instructions."""
    return ", ".join(f"`{spelled}`" for word in words for spelled in rows()[word][0])


def stack(word, column):
    """Fails if the column *Stack* has another number of operands than the row of an instruction."""
    before, after = (it.strip() for it in column.split("→")) if "→" in column else ("", "")
    _, pops, pushes = rows()[word]
    if (before != BEFORE[word]) if word in BEFORE else (count(before) != pops):
        fail(f"{PAGE} says that {word} pops: {before or 'nothing'}; its row in {ROWS} says {pops}")
    if (after != AFTER[word]) if word in AFTER else (count(after) != pushes):
        fail(f"{PAGE} says that {word} pushes: {after or 'nothing'}; its row in {ROWS} says {pushes}")


def table():
    """Returns the lines of the table of instructions, without its head."""
    return re.search(r"^\| Instruction \|.*?\n\n", read(PAGE), re.M | re.S)[0].splitlines()[2:-1]


def words_of(line):
    """Returns the words of the instructions of a line."""
    return list(dict.fromkeys(it.split(" ")[0] for it in re.findall(r"`([^`]*)`", line.split("|")[1])))


def check(is_writing):
    text, known = read(PAGE), [word for line in table() for word in words_of(line)]
    if sorted(known) != sorted(rows()):
        fail(f"{PAGE} doesn't have each instruction of {ROWS} once: {sorted(set(known) ^ set(rows()))}")
    for line in table():
        column = line.split("|")[1]
        text = text.replace(line, line.replace(column, f" {first(words_of(line))} ", 1))
        for word in words_of(line):
            stack(word, line.split("|")[2].strip())
    if text != read(PAGE):
        if not is_writing:
            fail(f"{PAGE} doesn't spell an instruction as {ROWS}: python3 -m checks documents write")
        with open(f"{ROOT}/{PAGE}", "w") as file:
            file.write(text)
