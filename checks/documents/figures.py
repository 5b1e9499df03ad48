"""Figures of bench/figures.csv that docs/SPEED.md shows.

The file has a line for each figure that was measured: the table, the row and the column that it belongs to, the value, and the
commit, date, machine, load and command. A line `<!-- figures: TABLE: COLUMN, COLUMN -->` of the page has a table below it. That
shows for each row and column the last figure. The columns commit, date, machine, load and command are those of the row's
last figure. `write` writes the tables.
"""
import csv
import re

from checks.documents.pages import fail, read
from checks.programs import ROOT

PAGE, FILE = "docs/SPEED.md", "bench/figures.csv"
FIELDS = ["table", "row", "column", "value", "commit", "date", "machine", "load", "command"]
MARK = re.compile(r"(<!-- figures: ([^:>]+): ([^>]+) -->\n\n)((?:\|.*\n)+\n)?")


def figures():
    """Returns the figures, and fails if a line lacks a part."""
    with open(f"{ROOT}/{FILE}", newline="") as file:
        found = list(csv.DictReader(file))
    for number, it in enumerate(found, 2):
        if list(it) != FIELDS or None in it.values() or not (it["table"] and it["row"] and it["value"]):
            fail(f"{FILE}, line {number}: a table, a row and a value are needed, and {len(FIELDS)} columns")
        if not re.match(r"20\d\d-\d\d-\d\d", it["date"]):
            fail(f"{FILE}, line {number}: no date like 2026-11-28")
    return found


def table(name, columns, found):
    """Returns a table of the page: for each row the last figures."""
    rows = {}
    for it in found:
        if it["table"] == name:
            row = rows.setdefault(it["row"], {})
            row[it["column"]] = it["value"]
            row.update({field: it[field] for field in FIELDS[4:]})
    if not rows or not all(any(column in row for row in rows.values()) for column in columns):
        fail(f"{PAGE} asks for the table {name} with {columns}, which {FILE} doesn't have")
    lines = [f"| {name[0].upper()}{name[1:]} | {' | '.join(columns)} |", "|---|" + "---|" * len(columns)]
    lines += [f"| {row} | {' | '.join(values.get(column, '') for column in columns)} |" for row, values in rows.items()]
    return "".join(f"{re.sub(' +', ' ', line)}\n" for line in lines) + "\n"


def check(is_writing):
    found, page = figures(), read(PAGE)
    made = MARK.sub(lambda it: it[1] + table(it[2], it[3].split(", "), found), page)
    if is_writing:
        with open(f"{ROOT}/{PAGE}", "w") as file:
            file.write(made)
    elif made != page or not MARK.search(page):
        fail(f"{PAGE} doesn't show the last figures of {FILE}: python3 -m checks documents write")
