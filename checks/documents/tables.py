"""Tables of rows, written from the texts and outputs of the documents: documents_*, patterns_* and examples_*.rows in
crates/tests_rows/data. Each text and output of LANGUAGE, VERIFIER, PATTERNS and examples/README becomes a row:

- a block of LANGUAGE.md with a comment `<!-- run: TEXT ? ASKED = STATUS LINES -->` above it, where `@` stands for the
  block, and ASKED is `verify`, `list` or a trace (`0*5` is five steps of task 0, `i0` an interrupt, `x0` an expiry). If
  `verify` isn't asked for, it accepts the text. A block that is no example begins with "```text";
- a line of its table of faulty lines; each of them is line 2 of a text;
- a block "```diff" of VERIFIER.md or PATTERNS.md, which has a refused text and the same text mended (causes.py), and what
  PATTERNS.md says below a block: "Without any `LINE`, `verify` prints `refused ..`";
- a program that PATTERNS.md shows a part of, which is accepted, with each trace of the table below it, written short;
- each command of examples/README.md, with the files that it names.
"""
import itertools
import os
import re

from checks import notation
from checks.documents import causes as refused
from checks.documents import vectors
from checks.documents.pages import FOLDER, PATTERN, STATUS, fail, programs, read, shown_commands
from checks.programs import ROOT


def row(name, text, asked):
    """Returns a row: its name, the lines of its text, and the questions with their answers."""
    lines = [line for line in text.split("\n") if line.strip()]
    for line in lines:
        if re.match(r"[#?=!] ", line) or "\\" in line or (" * " in line and not re.match(r"\d+ \* ", line)):
            fail(f"{name}: the notation of rows can't hold the line {line!r}")
    answers = [line for question, answer in asked for line in (f"? {question}", f"= {answer}")]
    return "\n".join([f"# {name}", *lines, *answers])


def questions(words):
    """Returns the pairs of ` ? ASKED = STATUS LINES`."""
    return [tuple(part.split(" = ", 1)) for part in words.split(" ? ")]


def of_block(name, harness, block):
    """Returns the row of a block of LANGUAGE.md with what is written above it; it is accepted, unless that says otherwise."""
    accepted = [] if "verify = " in harness else [("verify", "0")]
    if harness.startswith("@ = "):
        text, trace = block.split("%\n")
        return row(name, text, [(notation.shortened(trace), harness[4:]), *accepted])
    text, asked = harness.split(" ? ", 1)
    pairs = questions(asked) + accepted
    if pairs[0][0] == "@":
        return row(name, text, [(notation.shortened(block), pairs[0][1]), *accepted])
    before, after = text.split("@")
    parts = [before.strip(" /"), block.rstrip("\n"), after.strip(" /")]
    return row(name, "\n".join(part for part in parts if part), pairs)


def blocks(path):
    """Returns a row for each block of a document, and fails if a block has nothing written above it, and is no part of a file."""
    found, heading, harness, is_named, lines = [], "", [], False, iter(read(path).splitlines())
    for line in lines:
        if line.startswith("#"):
            heading = line.strip("# ")
        elif line.startswith("<!-- run: "):
            harness.append(line[len("<!-- run: "):-len(" -->")])
        elif PATTERN.search(line):
            is_named = True
        elif line.startswith("```"):
            block = "".join(f"{it}\n" for it in itertools.takewhile(lambda it: it != "```", lines))
            if line == "```" and not harness and not is_named:
                fail(f"{path}: nothing says how the block of {heading!r} is run")
            found += [of_block(heading, it, block) for it in harness]
            harness, is_named = [], False
    return found


def lines_two(path):
    """Returns a row for each line of a table that shows line 2 of a faulty text, and the code of the fault."""
    found = re.findall(r"^\| `([^`|]*)` \| (A\d) \| [^|]* \|$", re.search(r"^\| Line 2 \| Code \|.*?\n\n", read(path), re.M | re.S)[0], re.M)
    return [row(f"{code} by the line {line}", f"func main 0 / {line} / ret / end", [("list", f"{STATUS['error']} error {code} line 2")]) for line, code in found]


def causes(path):
    """Returns the rows of each text that a document mends: it is refused as is shown, and accepted then."""
    found, titles = [], []
    for pair in refused.pairs(path):
        titles.append(pair.heading)
        name = pair.heading + (f", {titles.count(pair.heading)}" if titles.count(pair.heading) > 1 else "")
        found.append(row(f"{name}, refused", pair.refused, [("verify", f"4 {refused.verdict(pair)}")]))
        found.append(row(f"{name}, accepted", pair.accepted, [("verify", "0")]))
    return found


def commands(path):
    """Returns a row for each text whose commands a document shows, with what each of them prints; all are accepted."""
    asked = {}
    for mode, text, trace, printed in shown_commands(path):
        status = STATUS.get(printed.split(" ")[0], 0)
        question = "verify" if mode == "verify" else notation.shortened(read(trace))
        asked.setdefault(text, [("verify", "0")]).append((question, f"{status} {printed}"))
    return [row(text, read(text), questions) for text, questions in asked.items()]


def patterns(path):
    """Returns a row for each program of a document, with the traces of its table, and one for it without some lines."""
    found = []
    for heading, text, shown, without in programs(path):
        asked = [(trace.strip("`"), printed.replace("`", "").replace("<br>", " / ")) for trace, printed in shown if "`" in trace]
        if not asked or len(asked) == len(shown):
            fail(f"{path}: the table of {heading!r} shows no trace, or nothing by workers")
        answers = [(trace, f"{STATUS[printed.split(' ')[0]]} {printed}") for trace, printed in asked]
        found.append(row(heading, text, [("verify", "0"), *answers]))
        for line, printed in without:
            rest = "\n".join(it for it in text.splitlines() if it.split(";")[0].strip() != line)
            found.append(row(f"{heading}, without {line}", rest, [("verify", f"{STATUS['refused']} {printed}")]))
    return found


def files():
    """Returns the tables of rows by the names of their files."""
    language, path = "docs/LANGUAGE.md", "docs/PATTERNS.md"
    tables = {
        "documents_blocks": blocks(language),
        "documents_texts": lines_two(language),
        "documents_causes": causes("docs/VERIFIER.md"),
        "patterns_patterns": patterns(path) + causes(path),
        "examples_commands": commands("examples/README.md"),
    }
    for name, rows in tables.items():
        if len(rows) < (2 if name == "documents_blocks" else 5):
            fail(f"only {len(rows)} rows were found for {name}")
    return {f"{name}.rows": "\n\n".join(rows) + "\n" for name, rows in tables.items()}


def counted(is_writing):
    """Fails if a table of rows isn't named in `tables`, or `stdout` doesn't begin with the numbers of their answers."""
    names = [it for it in read(f"{FOLDER}/tables").splitlines() if not it.startswith("#")]
    there = sorted(it for it in os.listdir(f"{ROOT}/{FOLDER}") if it.endswith(".rows"))
    if names != there:
        fail(f"{FOLDER}/tables doesn't name each table once, in order: {sorted(set(names) ^ set(there))}")
    counts = [(name, len(re.findall(r"^= ", read(f"{FOLDER}/{name}"), re.M))) for name in names]
    expected = "".join(f"{name}: {count} answers, 0 wrong\n" for name, count in counts)
    path = f"{os.path.dirname(FOLDER)}/stdout"
    of_rows, others = re.fullmatch(r"((?:\w+\.rows: .*\n)*)((?:.*\n)*)", read(path)).groups()
    if is_writing:
        open(f"{ROOT}/{path}", "w").write(expected + others)
    elif of_rows != expected:
        fail(f"{path} doesn't have the numbers of answers in {FOLDER}: python3 -m checks documents write")


def check(is_writing):
    """Fails if a table isn't what the documents show, or a file of vectors/ isn't what the tables make it. Or writes them."""
    for name, table in files().items():
        path = f"{ROOT}/{FOLDER}/{name}"
        if is_writing:
            with open(path, "w") as file:
                file.write(table)
        elif not os.path.exists(path) or read(f"{FOLDER}/{name}") != table:
            fail(f"{FOLDER}/{name} isn't what the documents show: python3 -m checks documents write")
    counted(is_writing)
    made, _ = vectors.files()
    if is_writing:
        vectors.write(made)
    for it in vectors.stale(made):
        fail(it)
