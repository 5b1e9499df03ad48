"""Shows one text for each cause, fault and check to `look`, and each example.  [LOOK [STS]|--unproved]

For each text, `explain` names the code that `sts` prints, with its status. `view` begins with what `sts plain` prints, with
its status. `draw` is a well-formed picture, or says about the fault what `view` says. For each cause V1 to V20, `view` and
`explain` with a trace say what the plain machine does, by the rules of docs/BEHAVIOUR.md. For each example, `view` begins
with what examples/README.md shows. `explain` says that it is accepted, and with the trace how it ends, with no task that
lives. The last line is `N passed, M failed`, of comparisons.
"""
import collections
import functools
import os
import re
import sys
import tempfile
import xml.dom.minidom

from checks import notation, programs, tally
from checks.documents import relied
from checks.documents.causes import pairs
from checks.documents.pages import STATUS, read, shown_commands
from checks.programs import ROOT, kept
from checks.tests.places import place_words, with_lines, without_lines

SECONDS = 600
VERIFIER, LANGUAGE = "docs/VERIFIER.md", "docs/LANGUAGE.md"
SEVEN = "`func main 0 / push 7 / ret / end`"
KID = "func kid 0 / push 0 / ret / end"
# Texts that are too long to be written in full, or have a byte that isn't allowed.
IN_WORDS = {
    "A1": b"func main 0\npush 1 ; \x80\nret\nend\n",
    "A8": b"\n" * 1_048_577,
    "A9 C1": b"".join(b"func f%d 0\npush 0\nret\nend\n" % n for n in range(64)) + b"func main 0\nret\nend\n",
    "A9 C2": b"func main 0\n" + b"push 0\npop\n" * 2048 + b"ret\nend\n",
}
IN_FULL = {
    "A2": "`func main 0 / puhs 7 / ret / end`",
    "A3": "`func main 0 / load s1 / ret / end`",
    "A4": "`func main 0 / join s0 - - - / ret / end`",
    "A5": "`func main 0 / jmp x / push 1 / ret / end`",
    "A6": "`func main 0 / x: / push 1 / x: / ret / end`",
    "A7": "`func main 0 / func kid 0 / end`",
    "A9 C3": "`func main 0 / jmp x / x: / end`",
    "A9 C4": "`func main 0 / open s0 all / fork s0 main _ / push 0 / ret / end`",
    "A9 C5": "`func main 1 / ret / end`",
    "A9 C6": "`func main 0 / push 1 / times 0 / next / ret / end`",
    "A9 C7": f"`{KID} / {KID} / func main 0 / ret / end`",
}
TRACES = {"T1": "Step 0\n", "T2": "step 01\n", "T3": "step 0"}
# How the plain machine runs the text of each cause, worked out by hand: a trace in short notation, and its end.
RUNS = {
    "V1": ("0*1", "fault Operand task 0 in main at 0 / steps 1"),
    "V2": ("0*33", "fault Operand task 0 in main at 32 / steps 33"),
    "V3": ("0*2", "fault Operand task 0 in main at 1 / steps 2"),
    "V4": ("0*3", "running / steps 3"),
    "V5": ("0*5", "success 0 / steps 5"),
    "V6": ("0*18", "fault Operand task 0 in main at 17 / steps 18"),
    "V7": ("0*5", "success 3 / steps 5"),
    "V8": ("0*3", "success 2 / steps 3"),
    "V9": ("0*2", "fault Operand task 0 in main at 1 / steps 2"),
    "V10": ("0*3", "fault Operand task 0 in main at 2 / steps 3"),
    "V11": ("0*2 1*1", "fault WrongThread task 1 in kid at 0 / steps 3"),
    "V12": ("0*4", "success 1 / steps 4"),
    "V13": ("0*4", "fault Structure task 0 in main at 3 / steps 4"),
    "V14": ("0*34", "fault Operand task 0 in main at 33 / steps 34"),
    "V15": ("0*1", "fault Unbound task 0 in main at 0 / steps 1"),
    "V16": ("0*3", "fault Operand task 0 in main at 2 / steps 3"),
    # 2 steps, 757 turns of 1,321, and 2 steps
    "V17": ("0*1000001", "success 0 / steps 1000001"),
    # 3 steps, 6 turns of 20,003 with 10,000 forks, 2 steps, 5,535 forks with a next each, and the fork that finds no room
    "V18": ("0*131094", "fault Operand task 0 in main at 5 / steps 131094"),
    # 5 steps, 8,192 forks with a next each; 65,535 scopes of subtasks are open as the last subtask's eighth finds no room
    "V19": ("0*16389 1..8192*8", "fault Operand task 8192 in a at 7 / steps 81925"),
    # the same forks; each subtask does its 26 steps, all their bindings being open after the first 16, and the root 5 more
    "V20": ("0*16389 1..8192*16 1..8192*10 0*5", "success 1 / steps 229386"),
}
# The drawings of the runs with pictures that would be too large.
BEGINNINGS = {"V17": "0*8", "V18": "0*9", "V19": "0*7 1*8", "V20": "0*7 1*16"}
# Faults of a run: a text, and a trace in short notation.
FAULTS = {
    "Operand": ("`func main 0 / pop / push 0 / ret / end`", "0*1"),
    "WrongThread": (f"`func kid 0 / join s0 - - x / x: / push 0 / ret / end / func main 0 / open s0 awaitall / fork s0 kid _ / "
                    "join s0 - - intr / close s0 / push 1 / ret / intr: / push 0 / close s0 / fail / end`", "0*3 1*1"),
    "IllegalState": (f"`{KID} / func main 0 / open s0 awaitall / fork s0 kid _ / close s0 / push 1 / ret / end`", "0*3"),
    "Structure": ("`func main 0 / open s0 awaitall / push 1 / ret / end`", "0*3"),
    "Unbound": ("`func main 0 / read 2 / ret / end`", "0*1"),
}


Case = collections.namedtuple("Case", "code text is_of_run trace drawn")


def spelled(words):
    """Returns the bytes of a text like "`func main 0` / 33 times `push 1` / `ret / end`"."""
    parts = re.findall(r"(?:(\d+) times )?`([^`]*)`", words)
    return "".join(f"{line}\n" for times, code in parts for line in code.split(" / ") * int(times or 1)).encode()


def events(short):
    """Returns the bytes of a trace that is written short."""
    return notation.events(short).encode()


def refusals():
    """Yields each cause with the first text that VERIFIER.md says is refused for it."""
    found = {}
    for pair in pairs(VERIFIER):
        found.setdefault(pair.heading.split(" ")[0], pair.refused.encode())
    yield from found.items()


def cases():
    """Yields each code with its text, whether it is one of a run or a trace, the trace, and the trace that is drawn where this
    is another one, a beginning."""
    for code, text in refusals():
        yield Case(code, text, False, events(RUNS[code][0]), BEGINNINGS.get(code, ""))
    for code in sorted([*IN_WORDS, *IN_FULL], key=lambda it: [int(n) for n in re.findall(r"\d+", it)]):
        yield Case(code, IN_WORDS[code] if code in IN_WORDS else spelled(IN_FULL[code]), False, b"", "")
    for code, lines in TRACES.items():
        yield Case(code, spelled(SEVEN), True, lines.encode(), "")
    for code, (text, short) in FAULTS.items():
        yield Case(code, spelled(text), True, events(short), "")


def listed_codes():
    """Returns the codes of a text and a trace that LANGUAGE.md defines, in their order: those of its tables."""
    return list(dict.fromkeys(re.findall(r"^\| ([ACT]\d+) \|", read(LANGUAGE), re.M)))


def listed():
    """Returns the codes of LANGUAGE.md, and the faults of BEHAVIOUR.md, that a text or a trace can be made for: those of A9
    are C1 to C7, and A10 and T4 mean that memory ran out."""
    faults = re.findall(r"^\d\. \*(\w+)\*:", read("docs/BEHAVIOUR.md"), re.M)
    return {*listed_codes(), *faults} - {"A9", "A10", "T4"}


says = functools.partial(programs.says, seconds=SECONDS)


def is_picture(printed):
    try:
        return xml.dom.minidom.parseString(printed).documentElement.tagName == "svg"
    except xml.parsers.expat.ExpatError:
        return False


def run_right(look, case, file, steps, viewed):
    """Returns of a cause what is compared of its run, and whether it is as it was worked out."""
    ends = RUNS[case.code][1].split(" / ")
    fault = re.fullmatch(r"(fault \w+) (task \d+) in (\S+) at (\d+)", ends[0])
    told = f"{fault[1]}, {fault[2]} in {place_words(case.text.decode(), fault[3], int(fault[4]))}" if fault else ends[0]
    status, explained = says(look, "explain", file, steps)
    by_rules = STATUS[ends[0].split(" ")[0]]
    return [
        (f"view {case.code}, by the rules", viewed[0] == by_rules and without_lines(viewed[1]).split("\n")[:2] == ends and viewed[1] == with_lines(case.text.decode(), without_lines(viewed[1]))),
        (f"explain {case.code} with its trace", status == by_rules and explained.split("\n")[0] == told),
    ]


def explained_at(look, folder, case):
    """Returns the status of `explain` for a case, and what it prints."""
    file, steps = kept(folder, "text", case.text), kept(folder, "trace", case.trace)
    return says(look, "explain", file, *([steps] if case.is_of_run else []))


def looked_at(look, sts, folder, case):
    """Returns what is compared of a case."""
    explained = explained_at(look, folder, case)
    file, steps = kept(folder, "text", case.text), kept(folder, "trace", case.trace)
    beginning = kept(folder, "beginning", events(case.drawn) if case.drawn else case.trace)
    viewed, drawn = says(look, "view", file, steps), says(look, "draw", file, beginning)
    plain, begun = says(sts, "plain", file, steps), says(sts, "plain", file, beginning)
    told = plain if case.is_of_run else says(sts, "verify", file)
    right = [
        (f"explain {case.code}, its status", explained[0] == told[0]),
        (f"explain {case.code}, its code", case.code.split(" ")[0] in explained[1].split("\n")[0].replace(",", "").split(" ")),
        (f"{case.code} is what sts prints", case.code in told[1]),
        (f"view {case.code}", viewed[0] == plain[0] and without_lines(viewed[1]).startswith(plain[1])),
        (f"draw {case.code}", drawn[0] == begun[0] and (is_picture(drawn[1]) if begun[0] in (0, 1, 5) else drawn == viewed)),
    ]
    return right + (run_right(look, case, file, steps, viewed) if case.code in RUNS else [])


def example_at(look, text, steps, printed):
    """Returns what is compared of an example; `plain` prints this of it."""
    name = os.path.basename(text)[:-4]
    file, steps = os.path.join(ROOT, text), os.path.join(ROOT, steps)
    viewed, drawn = (says(look, word, file, steps) for word in ("view", "draw"))
    accepted, told = says(look, "explain", file), says(look, "explain", file, steps)
    status, ends = STATUS[printed.split(" ")[0]], printed.split(" / ")
    return [
        (f"view {name}", viewed[0] == status and viewed[1].split("\n")[:2] == ends),
        (f"explain {name}", accepted == relied.accepted(name)),
        (f"explain {name} with its trace", told == (status, f"{ends[0]}\n")),
        (f"draw {name}", drawn[0] == status and is_picture(drawn[1])),
    ]


def compared(look, sts, folder):
    """Yields what is compared of each code and each example, and whether it is as it should be."""
    for case in cases():
        yield from looked_at(look, sts, folder, case)
    for mode, text, steps, printed in shown_commands("examples/README.md"):
        if mode == "plain":
            yield from example_at(look, text, steps, printed)
    codes = {case.code.split(" ")[-1] for case in cases() if case.code not in RUNS}
    yield "each code has a row", codes == listed()
    yield "each cause has a run", [code for code, _ in refusals()] == list(RUNS)


def tried(look, sts):
    with tempfile.TemporaryDirectory() as folder:
        yield from compared(look, sts, folder)


def main():
    (look, sts), _ = programs.taken(sys.argv[1:], "look", "sts")
    return tally.holding(tried(look, sts))
