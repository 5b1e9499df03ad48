"""Asks `look cases` for the answers to all cases of vectors/.  [LOOK|--unproved]

Each member that is expected of a case is the same in its answer, which is in order and has the number of its line. A short
text or trace is written in full first, and a text that has its trace is parted. A case that expects a listing is a program.
Outside texts aren't asked. Then it tries lines that are no case, an empty line, standard input, and a file that is missing
(status 6). The expected answers come from the worked rows. The last line but one says how many cases were answered in a
second, all processes included. The last line is `N passed, M failed`, of cases.
"""
import glob
import json
import os
import sys
import tempfile
import time

from checks import notation, programs
from checks.programs import ROOT
from checks.tally import Tally

SEVEN = {"text": "func main 0\npush 7\nret\nend\n", "trace": "step 0\nstep 0\n"}
# Worked out by hand: `main` has two steps, and ends with 7.
OF_SEVEN = {
    "run": {"outcome": "success", "steps": 2, "value": 7},
    "verdict": {"accepted": True, "budgets": [{"binds": 0, "function": "main", "scopes": 0, "steps": 2, "tasks": 1}]},
    "version": 1,
}
NO_CASE = {"error": "no case", "version": 1}


def asks(look, words, given=b""):
    """Returns the status and what is printed."""
    return programs.says(look, "cases", *words, given=given, is_text=False)


def agrees(answer, expected):
    """Returns whether all that is expected is in the answer."""
    if isinstance(expected, dict):
        return isinstance(answer, dict) and all(name in answer and agrees(answer[name], it) for name, it in expected.items())
    if isinstance(expected, list):
        return isinstance(answer, list) and len(answer) == len(expected) and all(map(agrees, answer, expected))
    return type(answer) is type(expected) and answer == expected


def in_full(case):
    """Returns a case as `look cases` reads it: its text, and its trace if a run is asked for."""
    said = {name: case[name] for name in ("text", "trace") if name in case}
    for name in ("text", "trace"):
        if f"{name}_parts" in case:
            said[name] = "".join(lines * count for count, lines in case[f"{name}_parts"])
    if "short" in case:
        said["trace"] = notation.events(case["short"])
    if "joined" in case:
        text, mark, events = f"\n{case['joined']}\n".partition("\n%\n")
        said = {"text": f"{text}\n"[1:] if mark else case["joined"], "trace": events[:-1] if mark else ""}
    return said


def wanted(case, number):
    """Returns what the answer to a case has to have. `look cases` prints no listing: its text is a program."""
    expected = case["expected"]
    return {"case": number, "version": 1, **({"verdict": {}} if "listing" in expected else expected)}


def vectors(look):
    """Yields each case of vectors/, its answer, and whether that is right."""
    for path in sorted(glob.glob(f"{ROOT}/vectors/*.jsonl")):
        with open(path) as file:
            cases = [it for it in map(json.loads, file) if "outside" not in it]
        status, printed = asks(look, ["-"], "".join(f"{json.dumps(in_full(it))}\n" for it in cases).encode())
        answers = [json.loads(it) for it in printed.decode().splitlines()]
        yield os.path.basename(path), (status, len(answers)), (status, len(answers)) == (0, len(cases))
        for number, (case, answer) in enumerate(zip(cases, answers), 1):
            yield case["name"], answer, agrees(answer, wanted(case, number))


def edges(look):
    """Yields what was tried, what came of it, and whether that is right."""
    lines = [json.dumps(SEVEN), "", "no JSON", "[]", '{"trace": ""}', '{"text": 7}', json.dumps({**SEVEN, "other": [1]})]
    expected = [{"case": 1, **OF_SEVEN}, *({"case": it, **NO_CASE} for it in (3, 4, 5, 6)), {"case": 7, **OF_SEVEN}]
    given = "".join(f"{it}\n" for it in lines).encode()
    status, printed = asks(look, ["-"], given)
    answers = [json.loads(it) for it in printed.decode().splitlines()]
    yield "lines that are no case", (status, answers), (status, answers) == (0, expected)
    compact = "".join(json.dumps(it, separators=(",", ":"), sort_keys=True) + "\n" for it in expected)
    yield "the form of answers", printed.decode(), printed.decode() == compact
    with tempfile.TemporaryDirectory() as folder:
        path = programs.kept(folder, "cases", given)
        said = asks(look, [path])
        yield "a file", said, said == (status, printed)
        said = asks(look, [os.path.join(folder, "none")])
        yield "no file", said, said == (6, b"error file\n")
    said = asks(look, ["-"])
    yield "no line", said, said == (0, b"")


def main():
    [look], _ = programs.taken(sys.argv[1:], "look")
    tally = Tally()
    for tried in (vectors, edges):
        for name, answer, right in tried(look):
            tally.holds(name, right, answer)
    many = (json.dumps(SEVEN) + "\n").encode() * 20_000
    since = time.perf_counter()
    status, printed = asks(look, ["-"], many)
    seconds = time.perf_counter() - since
    tally.equals("many cases", (status, printed.count(b"\n")), (0, 20_000))
    print(f"20000 cases in {seconds:.2f} seconds")
    return tally.end()
