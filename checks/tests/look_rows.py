"""Asks `look` for the answers of the rows in checks/look_rows, which were worked out by hand.  [LOOK|--unproved]

The files `.rows` have the notation of the tables in crates/tests_rows/data, with these questions:
- `? explain [--lines] [--json]` asks for the explanation of the text above, whose file is named `text` in the answer;
  `? explain TRACE` for that of its run;
- `? tell [FROM..TO] [--each] [--strict] [--json] TRACE` asks for the story of its run;
- `? view [--each] [--full] [--living] [--json] TRACE` and `? draw [--events A..B] TRACE` ask for what these commands print, and
  `? ends OPTIONS` for the ends.
A TRACE is short (`0*5`), or `trace LINES`. A remark `# ---- GROUP` begins a group, and one above a text is the row's name.

pictures.json has runs, and the picture of each. `sizes` are the width and the height of the picture and of its grid, and
`foot` is where the legend begins; `titled` is the heading's form of `state`, if that has names. An element is `CLASS X Y WORDS` for a mark, `fork X FROM TO`, `number X N WORDS`,
`idle X N WORDS`, or `value X Y WORDS` and other texts. In a brief picture each other number is a `higher-number` or
`higher-idle`. An element with `of each` stands for these elements of each event from
`first` to `last`: N is its number, and X its column, of which the first is at `at`. `events` and `brief` are the options, if
they are given, and `left_out` says in the heading which events aren't drawn. The legend has the marks that the elements have.
The style is a text that was chosen; it isn't compared. In a text, a trace, `stands` and `left_out`, ` / ` is between two lines.
The last line is `N passed, M failed`, of rows.
"""
import glob
import html
import json
import os
import re
import sys
import tempfile

from checks import notation, programs, tally

HERE = f"{programs.CHECKS}/look_rows"
# Of each mark its shape and its meaning, in the order of the legend.
MARKS = {
    "ready": ("h24", "can take a step"),
    "waits": ("h24", "waits in join or close"),
    "step": ("m-4 0a4 4 0 1 0 8 0a4 4 0 1 0-8 0", "a step"),
    "fork": ("m12-8v16", "starts a subtask"),
    "success": ("m7 0l4 5l8-10", "succeeded"),
    "failed": ("m8-5l10 10m0-10l-10 10", "failed"),
    "unheard": ("m8 0a5 5 0 1 0 10 0a5 5 0 1 0-10 0", "ended after the cancel, not told"),
    "never-started": ("m8-5h10v10h-10z", "forked after the cancel, never runs"),
    "interrupted": ("m2-8l-6 8h5l-3 7l8-9h-5l4-6z", "interrupted"),
    "bracket": ("h24", "an open scope"),
    "edge": ("m0-4v8", "opened, joined or closed"),
    "closing": ("h24", "its close waits for subtasks"),
    "expired": ("m4-4h7l-7 8h7z", "time is up"),
    "cancelled": ("m13 0a4 4 0 1 0 8 0a4 4 0 1 0-8 0m1.2 2.8l5.6-5.6", "cancelled"),
    "quiet": ("m13 0a3 3 0 1 0 6 0a3 3 0 1 0-6 0", "closed, with nothing to cancel"),
    "fault": ("m14-9v10m0 4v3", "a forbidden step: the run stops"),
    "idle": ("m-7 0h14", "the event changed nothing"),
}
# Of texts that are smaller if they have more letters than fit: how many fit, and their size in pixels.
ROOMS = {"number": (3, 10), "code": (31, 10), "value": (21, 11)}


def tables():
    """Yields of each row its file and line, its group and name, the text, what is asked, the trace, the status and the output."""
    for path in sorted(glob.glob(f"{HERE}/*.rows")):
        for row in notation.table(path):
            words, trace = row.asked.split(), None
            if words[0] != "ends":
                asked = re.fullmatch(r"(explain|view|draw|tell(?: \d+\.\.\d+)?)((?: --\w+(?: \d+\.\.\d+)?)*)(?: (.*))?", row.asked)
                words, trace = [*asked[1].replace("..", " ").split(), *asked[2].split()], None if asked[3] is None else notation.trace(asked[3])
            status, printed = notation.answer(row)
            yield f"{os.path.basename(path)} line {row.number}", row.group, row.name, notation.whole(row.text), words, trace, status, printed or b""


def asks(look, words, text, trace):
    """Returns the status and what `look` prints."""
    with tempfile.TemporaryDirectory() as folder:
        files = {name: it for name, it in (("text", text), ("trace", trace)) if it is not None}
        for name, it in files.items():
            programs.kept(folder, name, it)
        return programs.says(look, words[0], *files, *words[1:], seconds=60, is_text=False, cwd=folder)


def lines(short):
    return "".join(f"{it}\n" for it in short.split(" / ")) if short else ""


def mark(kind, x, y, words):
    return f"<path class='{kind}' d='M{x} {y}{MARKS[kind][0]}'><title>{words}</title></path>\n"


def fitted(kind, words):
    """Returns the attribute of words that are smaller, so that they fit into their room."""
    count, (letters, size) = len(html.unescape(words)), ROOMS.get(kind, (len(words), 0))
    return f" style='font-size:{max(1, letters * size // count)}px'" if count > letters else ""


def element(short):
    """Returns an element of a picture from its short form."""
    kind, x, y, words = (short.replace(" / ", "\n").split(" ", 3) + [""])[:4]
    if kind in ("number", "idle", "higher-number", "higher-idle"):
        at = 30 if kind.startswith("higher") else 40
        number = f"<text class='number' x='{x}' y='{at + 4}'{fitted('number', y)}><title>{words}</title>{y}</text>\n"
        return number + (mark("idle", x, at, words) if kind.endswith("idle") else "")
    if kind == "fork":
        return f"<path class='fork' d='M{x} {y}V{words}'/>\n"
    if kind in ("value", "label", "name", "code", "word"):
        return f"<text class='{kind}' x='{x}' y='{y}'{fitted(kind, words)}>{words}</text>\n"
    return mark(kind, x, y, words)


def elements(row):
    """Yields the elements of a row in their short form."""
    for it in row["elements"]:
        if isinstance(it, str):
            yield it
            continue
        for n in range(it["first"], it["last"] + 1):
            at = {"X": str(it["at"] + 24 * (n - it["first"])), "N": str(n)}
            yield from (" ".join(at.get(word, word) for word in short.split(" ")) for short in it["of each"])


def legend(row):
    """Returns the legend of a row: the marks that it has, two in a line."""
    has = {short.split(" ")[0].removeprefix("higher-") for short in elements(row)}
    kinds = [kind for kind in MARKS if kind in has]
    for n, kind in enumerate(kinds):
        x, y, words = 232 * (n % 2), 20 * (n // 2), MARKS[kind][1]
        yield f"{mark(kind, x, y, words)}<text class='key' x='{x + 32}' y='{y + 4}'>{words}</text>\n"


def picture(row):
    """Returns the picture of a row, without its style."""
    wide, high, grid_wide, grid_high = row["sizes"]
    classes = "sts-run sts-brief" if "brief" in row else "sts-run"
    state = f"text, trace: {row.get('titled', row['state'])}\n steps {row['steps']}\n{lines(row.get('left_out', ''))}"
    described = f"{row['state']}\nsteps {row['steps']}\n{lines(row['stands'])}"
    return (
        f"<svg xmlns='http://www.w3.org/2000/svg' class='{classes}' role='img' viewBox='0 0 {wide} {high}' width='{wide}' height='{high}'>\n"
        f"<title>{state}</title>\n<desc>{described}</desc>\n"
        f"<rect class='ground' x='208' y='46' width='{grid_wide}' height='{grid_high}'/>\n"
        f"<text class='heading' x='12' y='22'>{state}</text>\n{''.join(map(element, elements(row)))}"
        f"<g transform='translate(12 {row['foot']})'>\n{''.join(legend(row))}</g>\n</svg>\n"
    )


def without_style(printed):
    """Returns what is printed without the style, which is before the grid."""
    return re.sub(r"(?s)(</desc>\n).+?(<rect class='ground')", r"\1\2", printed, count=1)


def tried(look):
    """Yields what is asked, what `look` answers, and what is right."""
    for where, group, name, text, words, trace, status, printed in tables():
        yield f"{where}: {group}, {name}", asks(look, words, text, trace), (status, printed)
    with open(f"{HERE}/pictures.json") as file:
        for row in json.load(file):
            window = [*(["--events", row["events"]] if "events" in row else []), *(["--brief"] if "brief" in row else [])]
            trace = notation.meant(row["trace"]) if row["trace"] else b""
            status, printed = asks(look, ["draw", *window], lines(row["text"]).encode(), trace)
            yield f"the picture of {row['name']}", (status, without_style(printed.decode())), (row["status"], picture(row))


def main():
    [look], _ = programs.taken(sys.argv[1:], "look")
    return tally.equal(tried(look))
