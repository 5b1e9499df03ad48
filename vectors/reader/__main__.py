"""Answers the cases of files in JSON Lines, and compares: python3 vectors/reader FILE..

This is an implementation of the whole language, written from docs/LANGUAGE.md, docs/BEHAVIOUR.md and docs/VERIFIER.md, and not
from the sources of `sts`. docs/IMPLEMENTERS.md has the form of a case. Each case is answered on its own, and a line says what differs.
The last line says how many cases were compared and how many are wrong; the status is 1 if one is.
"""
import json
import sys

import checks
import listing
import text
import trace
from machine import Machine
from verifier import verify

if hasattr(sys, "set_int_max_str_digits"):
    sys.set_int_max_str_digits(0)


def whole(case, name):
    """Returns the bytes of the text or the trace of a case, or None. A long one comes in parts: how often, and lines."""
    if f"{name}_parts" in case:
        return b"".join(lines.encode() * count for count, lines in case[f"{name}_parts"])
    return case[name].encode() if name in case else None


def program(given):
    """Returns the program of a text. Raises the fault of a text."""
    read = text.read(given)
    checks.check(read)
    return read


def run(read, events):
    """Returns the state of a run after events."""
    machine = Machine(read)
    for word, number, count in events:
        machine.event(word, number, count)
    return machine.answer()


def answer_of(case):
    """Returns what an implementation says of a case: the members that `expected` may have."""
    if "outside" in case:
        trace.read_outside(case["outside"].encode())
        return {"outside": {}}
    given, events = trace.parted(case["joined"].encode()) if "joined" in case else (whole(case, "text"), whole(case, "trace"))
    read = program(given)
    if "listing" in case["expected"]:
        return {"listing": listing.listing(read)}
    if "short" in case:
        return {"run": run(read, trace.short(case["short"]))}
    if events is None:
        return {"verdict": verify(read)}
    return {"run": run(read, trace.read(events))}


def answer(case):
    """Returns what an implementation says of a case, with the faults of its text and its trace."""
    try:
        return answer_of(case)
    except text.TextFault as fault:
        return {"text_fault": fault.said}
    except trace.TraceFault as fault:
        return {"trace_fault": fault.said}


def agrees(had, wanted):
    """Returns whether all that is expected is in an answer."""
    if isinstance(wanted, dict):
        return isinstance(had, dict) and all(key in had and agrees(had[key], it) for key, it in wanted.items())
    if isinstance(wanted, list):
        return isinstance(had, list) and len(had) == len(wanted) and all(map(agrees, had, wanted))
    return type(had) is type(wanted) and had == wanted


def main():
    compared = wrong = 0
    for path in sys.argv[1:]:
        with open(path) as file:
            for line in file:
                case = json.loads(line)
                had = answer(case)
                compared += 1
                if not agrees(had, case["expected"]):
                    wrong += 1
                    print(f"{case['name']}: {had}, expected {case['expected']}")
    print(f"{compared} cases, {wrong} wrong")
    return 1 if wrong or not compared else 0


if __name__ == "__main__":
    sys.exit(main())
