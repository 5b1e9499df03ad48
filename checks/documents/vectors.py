"""Keeps vectors/, which has the worked rows as cases of JSON.

    python3 -m checks vectors          compares vectors/ with the tables of rows
    python3 -m checks vectors write    writes vectors/ from the tables; so does python3 -m checks documents write

The tables are those of crates/tests_rows/data. A row becomes a case with a name, what is given, and what is expected.
docs/IMPLEMENTERS.md has the form. A text or a trace of more than 64 KiB stays short, in short.jsonl, and a text that has its
trace is in joined.jsonl. Outside texts are in outside.jsonl. A row has no case if its text isn't UTF-8, if it has a listing of more than 64 KiB, or if it says
nothing but the status of a run that has no end.
"""
import collections
import glob
import json
import os
import re
import sys

from checks import notation
from checks.programs import ROOT

FOLDER = f"{ROOT}/vectors"
LONGEST = 65536  # The bytes of a text and its trace that a case has in full.
ALONE = ("verify", "list", "joined", "outside ")  # What a row asks for if it doesn't ask for a run.
OWN_FILES = ("joined", "outside")  # The questions whose cases have a file of their own.

RUN_FAULT = re.compile(r"fault (\w+) task (\d+) in (\w+) at (\d+)$")
REFUSED = re.compile(r"refused (V\d+) in (\w+) at (\d+): ")
TEXT_FAULT = re.compile(r"error (A\d) line (\d+)$")
CHECK_FAULT = re.compile(r"error (A9) (C\d) function (\d+) at (\d+)$")
TRACE_FAULT = re.compile(r"error (T\d)(?: line (\d+))?$")


def budgets(lines):
    """Returns the budgets of the functions, which have four lines each."""
    found = {}
    for line in lines:
        name, word, number = line.split(" ")
        found.setdefault(name, {"function": name})[word] = int(number)
    return list(found.values())


def verdict(lines):
    """Returns the verdict that lines state."""
    refused = REFUSED.match(lines[0])
    if refused:
        return {"accepted": False, "cause": refused[1], "function": refused[2], "place": int(refused[3])}
    return {"accepted": True, "budgets": budgets(lines)}


def state(line):
    """Returns the state of a run that a line states."""
    words, fault = line.split(" "), RUN_FAULT.match(line)
    if fault:
        return {"outcome": "fault", "fault": fault[1], "task": int(fault[2]), "function": fault[3], "place": int(fault[4])}
    if words[0] == "running":
        return {"outcome": "running"}
    return {"outcome": words[0], "value" if words[0] == "success" else "code": int(words[1])}


def fault(line):
    """Returns the fault of a text or a trace that a line states, with the name that it has in an answer; or none."""
    text, check, trace = TEXT_FAULT.match(line), CHECK_FAULT.match(line), TRACE_FAULT.match(line)
    if text:
        return {"text_fault": {"fault": text[1], "line": int(text[2])}}
    if check:
        return {"text_fault": {"fault": check[1], "check": check[2], "function": int(check[3]), "place": int(check[4])}}
    if trace:
        return {"trace_fault": {"fault": trace[1], "line": int(trace[2]) if trace[2] else None}}
    return None


def expected(asked, printed):
    """Returns what is expected of the answer."""
    lines = printed.decode().split("\n")[:-1]
    if fault(lines[0]):
        return fault(lines[0])
    if asked == "verify":
        return {"verdict": verdict(lines)}
    if asked == "list":
        return {"listing": printed.decode()}
    return {"run": {**state(lines[0]), "steps": int(lines[1].split(" ")[1])}}


def of_status(asked, status):
    """Returns what a status alone says, or none. Each row with a fault has its line, too."""
    if asked == "verify" and status in (0, 4):
        return {"verdict": {"accepted": status == 0}}
    if asked == "outside" and status == 0:
        return {"outside": {}}
    outcomes = {0: "success", 1: "failed"}
    return {"run": {"outcome": outcomes[status]}} if asked == "run" and status in outcomes else None


def pairs(parts):
    """Returns parts of a text as a case has them."""
    return [[count, lines.decode()] for count, lines in parts]


def short_trace(asked, words):
    """Returns the members of a long trace."""
    if asked.startswith("trace "):
        return {"trace_parts": pairs(notation.parts(asked[len("trace "):], words))}
    return {"short": asked}


def given(text, asked, words):
    """Returns the members of a case that say what is asked, and whether they are short forms."""
    whole = notation.whole(text)
    if asked == "joined":
        return {"joined": whole.decode()}, False
    if asked.startswith("outside "):
        return {"outside": notation.meant(asked[len("outside "):], words).decode()}, False
    is_run = asked not in ("verify", "list")
    events = notation.trace(asked, words) if is_run else b""
    if len(whole) + len(events) <= LONGEST:
        return {"text": whole.decode(), **({"trace": events.decode()} if is_run else {})}, False
    said = {"text": whole.decode()} if len(whole) <= LONGEST else {"text_parts": pairs(text)}
    return {**said, **(short_trace(asked, words) if is_run else {})}, True


def case(name, text, asked, words, answer):
    """Returns the case of a row, and the file that it belongs to if that isn't the file of its table; or none."""
    try:
        said, is_short = given(text, asked, words)
    except UnicodeDecodeError:
        return None
    status, printed = answer
    kind = asked.split(" ")[0] if asked.startswith(ALONE) else "run"
    wanted = expected(kind, printed) if printed else of_status(kind, status)
    if not wanted or len(wanted.get("listing", "")) > LONGEST:
        return None
    return {"name": name, **said, "expected": wanted}, kind if kind in OWN_FILES else "short" if is_short else None


def files():
    """Returns for each file of vectors/ its text, and how many rows have no case."""
    found, left = collections.defaultdict(list), 0
    for table in notation.tables():
        for row in notation.table(f"{notation.DATA}/{table}"):
            made = case(f"{table[:-len('.rows')]} line {row.number}", row.text, row.asked, row.words, notation.answer(row))
            left += made is None
            if made:
                said, form = made
                found[f"{form or table.split('_')[0]}.jsonl"].append(json.dumps(said, ensure_ascii=False) + "\n")
    return {name: "".join(lines) for name, lines in found.items()}, left


def write(made):
    """Writes the files, and removes others."""
    os.makedirs(FOLDER, exist_ok=True)
    for name in os.listdir(FOLDER):
        if name.endswith(".jsonl") and name not in made:
            os.remove(f"{FOLDER}/{name}")
    for name, text in made.items():
        with open(f"{FOLDER}/{name}", "w") as file:
            file.write(text)


def stale(made):
    """Yields the files that aren't as they are made."""
    for name in sorted({*made, *map(os.path.basename, glob.glob(f"{FOLDER}/*.jsonl"))}):
        path = f"{FOLDER}/{name}"
        if not os.path.exists(path) or name not in made or open(path).read() != made[name]:
            yield f"vectors/{name} isn't what the tables say: python3 -m checks documents write"


def main():
    made, left = files()
    if sys.argv[1:] == ["write"]:
        write(made)
    found = list(stale(made))
    for it in found:
        print(it)
    print(f"{sum(it.count(chr(10)) for it in made.values())} cases in {len(made)} files; {left} rows have no case")
    return 1 if found else 0
