#!/usr/bin/env python3
"""Draws the three pictures of the documents, as SVG files next to this script.

phases.svg   the phases of a scope, and what moves it from one to another
run.svg      the run of examples/sum as a journal: a row for each task, a column for each event
ladder.svg   from a text to the workers, with the promise on each arrow

    docs/pictures/draw.py            writes the files
    docs/pictures/draw.py --check    says whether the files are what it would write (status 1 if not)
"""
import os
import sys
from xml.sax.saxutils import escape

HERE = os.path.dirname(os.path.realpath(__file__))
ROOT = os.path.dirname(os.path.dirname(HERE))
STYLE = """
  .back { fill: #ffffff }
  .box { fill: #eef3fa; stroke: #3a5a85; stroke-width: 1.4 }
  .line { fill: none; stroke: #3a5a85; stroke-width: 1.4 }
  .tip { fill: #3a5a85 }
  .grid { stroke: #d4d8de; stroke-width: 1 }
  .wait { fill: #ffffff; stroke: #b05a00; stroke-width: 1.6; stroke-dasharray: 4 3 }
  text { font: 13px 'DejaVu Sans', Verdana, sans-serif; fill: #1c2530 }
  .name { font-weight: bold }
  .small { font-size: 11px; fill: #4a5563 }
  .code { font: 11px 'DejaVu Sans Mono', Menlo, monospace }
  @media (prefers-color-scheme: dark) {
    .back { fill: #14181d }
    .box { fill: #20303f; stroke: #8fb4e0 }
    .line { stroke: #8fb4e0 }
    .tip { fill: #8fb4e0 }
    .grid { stroke: #343b44 }
    .wait { fill: #14181d; stroke: #ffb066 }
    text { fill: #e8edf2 }
    .small { fill: #b4bec9 }
  }
"""


def text(x, y, words, kind="", anchor="middle"):
    """Returns one or several lines of text; the first one stands at y."""
    lines = words.split("\n")
    rows = (f'<text x="{x}" y="{y + 15 * i}" text-anchor="{anchor}" class="{kind}">{escape(it)}</text>'
            for i, it in enumerate(lines))
    return "\n".join(rows)


def box(x, y, width, height, kind="box"):
    return f'<rect x="{x}" y="{y}" width="{width}" height="{height}" rx="7" class="{kind}"/>'


def arrow(path, kind="line"):
    return f'<path d="{path}" class="{kind}" marker-end="url(#tip)"/>'


def picture(width, height, title, told, parts):
    """Returns a whole picture; `told` is what it says to people who can't see it."""
    return "\n".join([
        f'<svg xmlns="http://www.w3.org/2000/svg" viewBox="0 0 {width} {height}" width="{width}" height="{height}" '
        'role="img" aria-labelledby="title told">',
        f"<title id=\"title\">{escape(title)}</title>",
        f"<desc id=\"told\">{escape(told)}</desc>",
        f"<style>{STYLE}</style>",
        '<defs><marker id="tip" viewBox="0 0 8 8" refX="7" refY="4" markerWidth="8" markerHeight="8" '
        'orient="auto-start-reverse"><path d="M0 0 L8 4 L0 8 z" class="tip"/></marker></defs>',
        f'<rect width="{width}" height="{height}" class="back"/>',
        *parts,
        "</svg>\n",
    ])


# ---- the phases of a scope

def phases():
    def phase(x, y, name, below):
        return box(x, y, 128, 52) + text(x + 64, y + 22, name, "name") + text(x + 64, y + 40, below, "small")

    parts = [
        phase(30, 150, "opened", "fork"),
        phase(262, 40, "attempted", "join again"),
        phase(494, 150, "joined", "get, except, tally"),
        phase(494, 290, "closing", "the owner waits"),
        phase(262, 360, "closed", "nothing is left"),
        arrow("M10 176 L28 176"),
        text(58, 142, "open", "code"),
        arrow("M110 148 C150 90 200 66 260 66"),
        text(96, 84, "join: interrupted", "code"),
        arrow("M300 38 C300 4 360 4 360 36"),
        text(432, 18, "join: interrupted", "code"),
        arrow("M392 66 C470 66 540 100 556 148"),
        text(560, 76, "join: ok, failed,\ntimeout", "code"),
        arrow("M160 170 L492 170"),
        text(418, 148, "join: ok, failed,\ntimeout", "code"),
        arrow("M558 204 L558 288"),
        text(568, 240, "close, and a\nsubtask lives", "code", "start"),
        arrow("M326 94 C326 220 420 300 492 312"),
        text(296, 234, "close, and a\nsubtask lives", "code"),
        arrow("M494 196 C440 300 400 330 362 358"),
        text(480, 240, "close,\nnone lives", "code", "start"),
        arrow("M262 80 C160 170 200 300 284 358"),
        text(186, 246, "close,\nnone lives", "code", "end"),
        arrow("M494 330 C450 350 420 372 392 380"),
        text(476, 366, "close, second step: none lives", "code", "start"),
        arrow("M80 204 C80 330 150 386 260 390"),
        text(30, 376, "close, if\nnothing was\nforked", "code", "start"),
        text(30, 452, "Besides its phase, a scope has two marks. Its joiner, an expiry or a close cancels it. "
             "An expiry counts while it is", "small", "start"),
        text(30, 468, "opened or attempted. No subtask of a closed scope lives.", "small", "start"),
    ]
    told = ("Opened goes to joined if join is ok, failed or timed out, and to attempted if it is interrupted; attempted "
            "goes to joined likewise. Close leads from attempted and joined to closed if no subtask lives, else to closing "
            "and, once none lives, to closed. From opened, close leads to closed if nothing was forked.")
    return picture(760, 484, "The phases of a scope", told, parts)


# ---- a run as a journal

def functions(path):
    """Returns the instructions of each function of a text, up to its first label."""
    found, name = {}, None
    for line in open(path):
        words = line.split(";")[0].split()
        if words[:1] == ["func"]:
            name = words[1]
            found[name] = []
        elif words and words[0].endswith(":"):
            name = None
        elif words and name and words != ["end"]:
            found[name].append(" ".join(words[:2]))
    return found


def run():
    """The texts's functions go straight on, so the nth step that counts of a task is its nth instruction."""
    code = functions(f"{ROOT}/examples/sum.sts")
    steps = [int(it.split()[1]) for it in open(f"{ROOT}/examples/sum.trace")]
    tasks = {task: code["main" if task == 0 else "square"] for task in sorted(set(steps))}
    wide, tall, left, top = 34, 70, 92, 58
    done, ends, born, parts = dict.fromkeys(tasks, 0), {}, {0: 0}, []
    for at, task in enumerate(steps):
        parts.append(text(left + wide * at + wide / 2, 46, str(at + 1), "small"))
        x, y = left + wide * at, top + tall * list(tasks).index(task)
        instruction = tasks[task][done[task]]
        waits = task == 0 and instruction.startswith("join") and len(ends) < len(tasks) - 1
        parts.append(box(x + 3, y + 12, wide - 6, 46, "wait" if waits else "box"))
        parts.append(f'<text transform="translate({x + wide / 2 + 4} {y + 35}) rotate(-90)" text-anchor="middle" class="code">'
                     f"{escape(instruction.split()[0])}</text>")
        if waits:
            continue
        if instruction.startswith("fork"):
            born[len(born)] = at
            below = top + tall * (len(born) - 1)
            parts.append(arrow(f"M{x + wide / 2} {y + 58} L{x + wide / 2} {below + 35} L{x + wide / 2 + 16} {below + 35}"))
        done[task] += 1
        if instruction == "ret":
            ends[task] = at
    rows = []
    for row, task in enumerate(tasks):
        y = top + tall * row
        rows.append(f'<line x1="{left}" y1="{y + 35}" x2="{left + wide * len(steps)}" y2="{y + 35}" class="grid"/>')
        rows.append(text(12, y + 39, f"task {task}", "name", "start"))
        lived = ends[task] if task in ends else len(steps) - 1
        rows.append(f'<line x1="{left + wide * (born[task] + (task > 0))}" y1="{y + 35}" '
                    f'x2="{left + wide * (lived + 1)}" y2="{y + 35}" class="line"/>')
        if task in ends:
            rows.append(f'<circle cx="{left + wide * (lived + 1) + 2}" cy="{y + 35}" r="5" class="tip"/>')
    foot = top + tall * len(tasks) + 22
    parts = [text(12, 24, "examples/sum: a row for each task, a column for each event of the trace", "name", "start"),
             text(12, 46, "event", "small", "start"), *rows, *parts,
             text(12, foot, f"Prints success 50 and steps {sum(done.values())}: the dashed step of task 0, while it waits at join, changes "
                  "nothing and isn't counted. Dots are ends.", "small", "start")]
    told = (f"{len(steps)} events. Task 0 opens a scope and forks tasks 1, 2 and 3; task 3 ends first, task 0 waits at join, "
            "tasks 1 and 2 end, and task 0 joins, adds, closes the scope and ends.")
    return picture(left + wide * len(steps) + 24, foot + 18, "A run as a journal", told, parts)


# ---- the ladder

LADDER = [  # floor, its crates, the theorem on the arrow to the next one, and the contracts that say it
    ("text", "sts_text, sts_asm", "answers the program that the text spells, or its fault; a listing reads back", "assemble, list"),
    ("program", "sts_code", "answers accepted or refused, as the definitions do; four budgets, exact over control paths", "verify"),
    ("accepted", "sts_verify", "no list of events leads to a fault; steps, tasks, scopes and bindings stay within the budgets", "every_run"),
    ("plain machine", "sts_plain", "the fast machine has the live view and the steps of the plain machine", "Plain::apply, Machine::turn"),
    ("machine", "sts_machine", "the reported journal is a list of events, and leads to the reported end", "Book::journal, run"),
    ("workers", "sts_pool", None, None),
]
MEMORY = "assemble, list, verify, Plain::apply and run may also answer that memory ran out. run has other errors too."


def ladder():
    parts, step = [], 96
    for row, (name, crate, theorem, contracts) in enumerate(LADDER):
        y = 24 + step * row
        parts.append(box(24, y, 190, 50, "box"))
        parts.append(text(119, y + 22, name, "name") + text(119, y + 40, crate, "small"))
        if theorem:
            parts.append(arrow(f"M119 {y + 52} L119 {y + step - 3}", "line"))
            parts.append(text(140, y + 70, theorem, "", "start") + text(140, y + 86, contracts, "code", "start"))
    foot = 24 + step * (len(LADDER) - 1) + 50
    parts.append(text(24, foot + 26, MEMORY, "small", "start"))
    told = " ".join([*(f"From {name}: {theorem} ({contracts})." for name, _, theorem, contracts in LADDER if theorem), MEMORY])
    return picture(760, foot + 42, "From a text to the workers", told, parts)


def main():
    drawn = {"phases.svg": phases(), "run.svg": run(), "ladder.svg": ladder()}
    if sys.argv[1:] == ["--check"]:
        stale = [it for it, svg in drawn.items() if not os.path.exists(f"{HERE}/{it}") or open(f"{HERE}/{it}").read() != svg]
        print(f"{len(drawn) - len(stale)} passed, {len(stale)} failed")
        return 1 if stale else 0
    for name, svg in drawn.items():
        with open(f"{HERE}/{name}", "w") as file:
            file.write(svg)
    return 0


if __name__ == "__main__":
    sys.exit(main())
