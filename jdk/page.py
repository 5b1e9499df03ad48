"""Writes the figures of a run into jdk/README.md, between the lines that mark them."""
import datetime
import os

import known

PATH = os.path.join(os.path.dirname(os.path.realpath(__file__)), "README.md")
BEGIN, END = "<!-- figures of `jdk/check.py --write` -->", "<!-- end of the figures -->"

# Each rule with the names that known.Witness gives to what a run comes to; the count is that of the name that came least.
RULES = (
    ("a fork makes a subtask, which starts", ["fork"]),
    ("a fork in a cancelled scope makes a subtask that never runs", ["fork in a cancelled scope"]),
    ("the joiner is told of an end that comes before its scope is cancelled", ["end that is told"]),
    ("the joiner doesn't hear of a later end, and its subtask stays unavailable", ["late end"]),
    ("a cancel sets the flag of each living subtask", ["cancel of living subtasks"]),
    ("a cancel doesn't go on to the scopes that these subtasks own", ["cancel above an open scope"]),
    ("`join` waits while subtasks live", ["join waits"]),
    ("`join` gives a result, a failure, a timeout, an interrupt", ["join ok", "join failed", "join timeout", "join interrupted"]),
    ("`join` doesn't wait for the subtasks of a cancelled scope", ["result while subtasks live"]),
    ("a result goes before an interrupt, and leaves the flag set", ["result before interrupt"]),
    ("an expiry goes before an interrupt", ["timeout before interrupt"]),
    ("an interrupt that comes at a `join`, or before it, isn't lost", ["interrupt at join", "interrupt"]),
    ("`all`: a result, a failure", ["all ok", "all failed"]),
    ("`awaitok`: a result, a failure", ["awaitok ok", "awaitok failed"]),
    ("`any`: a result, a failure", ["any ok", "any failed"]),
    ("`any` fails with -1 if the joiner heard of no end", ["no end was told"]),
    ("`awaitall`", ["awaitall ok"]),
    ("`until failed n`, `until success n`, `until atleast v`", ["failed ok", "success ok", "atleast ok"]),
    ("an expiry cancels the scope", ["expiry"]),
    ("an expiry that comes after `join`, in `close`, or of a scope without a timeout changes nothing", ["expiry without effect"]),
    ("`close` ends at once, or waits and ends later", ["close at once", "close that waits", "end of close"]),
    ("an interrupt doesn't end the wait of a `close`", ["interrupt while close waits"]),
    ("`close` after an interrupted `join`, and where nothing was forked", ["close after an interrupted join", "close with nothing forked"]),
    ("the state, the value and the code of a subtask", ["case", "get", "except"]),
    ("how many subtasks are in a state, and the sum of the values", ["tally", "total"]),
    ("a subtask asks whether its scope is cancelled", ["cancelled by a subtask"]),
    ("`interrupted` tells whether the flag is set, and clears it", ["interrupted"]),
    ("reading a key, its own or inherited", ["read", "read of an inherited binding"]),
    ("the innermost binding of a key", ["read of a rebound key"]),
    ("is a key bound, and a value in its place; the end of a binding", ["bound", "orelse", "unbind"]),
    ("misuse: the wrong thread (`fork`, `join`, `close`)", ["WrongThread fork", "WrongThread join", "WrongThread close"]),
    ("misuse: an illegal state (`fork`, `join`, `close`)", ["IllegalState fork", "IllegalState join", "IllegalState close"]),
    ("misuse: an illegal state (`get`, `except`)", ["IllegalState get", "IllegalState except"]),
    ("misuse: a structure violation (`fork`, `close`, `unbind`)", ["Structure fork", "Structure close", "Structure unbind"]),
    ("misuse: a key that isn't bound", ["Unbound read"]),
)


def least(tally, names):
    return min(tally.rules[it] for it in names)


def figures(jdk, tally, real, wrong, freely, ran, seconds):
    cases = sum(tally.kinds.values())
    yield f"{datetime.date.today()}, {jdk.vendor}, build {jdk.build}: {cases:,} cases of {tally.events:,} events in {seconds} seconds, no unknown difference."
    yield ""
    yield from ("| Cases | Played | Agree to the last event | Known differences only |", "|---|---|---|---|")
    for kind, count in tally.kinds.items():
        yield f"| {kind} | {count:,} | {tally.agreed[kind]:,} | {count - tally.agreed[kind]:,} |"
    yield ""
    yield from (f"- {count:,} cases were played with {join} `join` on {threads} threads." for (join, threads), count in sorted(tally.modes.items()))
    yield (f"- {sum(real.kinds.values()):,} cases with an expiry were played with real timeouts. {sum(real.agreed.values()):,} agree to the last event, "
           f"and the others have known differences only. Another {real.dropped:,} were dropped: a timer may have fired unasked.")
    yield f"- `look view --each`, `sts plain` and `sts replay` gave {wrong.asked:,} answers, each as the machine in Python."
    yield f"- {freely.programs} programs ran {freely.runs:,} times with no controller. {freely.by_rules:,} runs came to an end that `look ends` lists."
    yield f"- {freely.differing:,} free runs came to an end that only a known difference adds."
    yield f"- {freely.added:,} free runs came to an end that only the JDK's own steps add. None came to another end."
    yield f"- {ran.count} Java programs ran."
    yield ""
    yield from ("| Rule | Cases that came to it and agree |", "|---|---|")
    for rule, names in RULES:
        yield f"| {rule} | {least(tally, names):,} |"
    yield ""
    yield from ("| Known difference | Cases |", "|---|---|")
    for name in known.DIFFERENCES:
        yield f"| {name} | {tally.known[name]:,} |"


def write(jdk, tally, real, wrong, freely, ran, seconds):
    with open(PATH) as file:
        before, rest = file.read().split(BEGIN)
    after = rest.split(END)[1]
    with open(PATH, "w") as file:
        file.write(before + "\n".join([BEGIN, "", *figures(jdk, tally, real, wrong, freely, ran, seconds), "", END]) + after)
