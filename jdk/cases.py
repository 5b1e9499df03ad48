"""The cases that are played: all rows that run a program (the examples and the patterns are among them), drawn programs,
misuse, and journals of `sts run`."""
import glob
import os
import random
import tempfile
from concurrent.futures import ThreadPoolExecutor

from checks.tests import differ
from checks.documents import pages
import drawn
from checks import notation
from player import Case

ROOT = os.path.dirname(os.path.dirname(os.path.realpath(__file__)))
MOST_BYTES = 8_000  # of a trace of a row: the few that are longer are at the limits of what a machine holds
WORKERS = 4
DRAWN_AT_ONCE = 100


def kind_of(table):
    return {"examples": "examples", "patterns": "patterns", "faults": "misuse in rows"}.get(table.split("_")[0], "worked rows")


def of_rows():
    """Returns the rows that run a program, each once, and how many are too long."""
    found, long = {}, 0
    for table in notation.tables():
        for number, text, asked, events, (status, _) in notation.rows(f"{notation.DATA}/{table}"):
            if asked != "run" or status == pages.STATUS["error"]:
                continue
            if len(events) > MOST_BYTES:
                long += 1
                continue
            case = Case(kind_of(table), f"{table} line {number}", text.decode("latin-1"), tuple(events.decode().splitlines()))
            found.setdefault((case.text, case.events), case)
    return list(found.values()), long


def of_files():
    """Returns the examples with their traces."""
    found = []
    for path in sorted(glob.glob(f"{ROOT}/examples/*.sts")):
        with open(path) as text, open(path[:-4] + ".trace") as events:
            found.append(Case("examples", os.path.basename(path), text.read(), tuple(events.read().splitlines())))
    return found


def of_draws_from(seed, misuse, numbers):
    """Returns the drawn cases with these numbers."""
    kind, text = ("drawn misuse", drawn.misused) if misuse else ("drawn scopes", drawn.scoped)
    return [Case(kind, f"{kind} {seed} {it}", *drawn.drawn(seed, it, text)) for it in numbers]


def draw_parts(seed, count):
    """Returns the input of `of_draws_from` for this number of cases in all: three of four are whole programs, one is misuse."""
    whole = count * 3 // 4
    return [(seed, misuse, range(at, min(at + DRAWN_AT_ONCE, most))) for misuse, most in ((False, whole), (True, count - whole))
            for at in range(0, most, DRAWN_AT_ONCE)]


def journal(sts, text, number):
    """Returns the journal of a run by workers, with interrupts and expiries from outside; None for a refused program."""
    draw = random.Random(f"journal {number}")
    with tempfile.TemporaryDirectory() as folder:
        program = differ.Program(sts, folder)
        said, events = program.runs(text, draw.choice([1, 2, 3, 8]), differ.outside(draw))
    return tuple(events.splitlines()) if said.status in differ.ENDED else None


def of_journals(sts, seed, count):
    """Returns cases with traces that `sts run` wrote, for the examples, the patterns and drawn programs."""
    texts = [it.text for it in of_files()] + [text for _, text, _, _ in pages.programs("docs/PATTERNS.md")]
    texts += [drawn.drawn(seed, it)[0] for it in range(count - len(texts))]
    with ThreadPoolExecutor(WORKERS) as pool:
        journals = list(pool.map(lambda it: journal(sts, texts[it], f"{seed} {it}"), range(len(texts))))
    return [Case("journals", f"journal {seed} {it}", texts[it], events) for it, events in enumerate(journals) if events is not None]
