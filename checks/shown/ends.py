"""The ends that docs/LOOK.md, docs/PATTERNS.md and docs/BEHAVIOUR.md show.

LOOK.md shows what `ends` prints, and PATTERNS.md the ends of each of its programs: those of its row in the table of races, or
those that a run by workers may come to. BEHAVIOUR.md shows those of programs whose end depends on the order of events.
"""
import os
import re
import tempfile

from checks.documents.pages import programs, read
from checks.programs import ROOT
from checks.tests.ends import LINE, says


def shown(sts, look):
    """Yields what docs/LOOK.md, docs/PATTERNS.md and docs/BEHAVIOUR.md show of the ends of programs, and whether it is so."""
    rows = re.findall(r"^\| [^|]+ \| `\./look (ends [^`]+)` \| ((?:`[^`]+`(?:, )?)+) \|$", read("docs/BEHAVIOUR.md"), re.M)
    yield "docs/BEHAVIOUR.md, how many rows", len(rows) > 3
    for words, ends in rows:
        command, path, *more = words.split()
        found = [it[3] for it in map(LINE.fullmatch, says(look, command, f"{ROOT}/{path}", *more)[1]) if it]
        yield f"docs/BEHAVIOUR.md, {words}", sorted(found) == sorted(re.findall(r"`([^`]+)`", ends))
    page = read("docs/LOOK.md")
    blocks = re.findall(r"For \[\w+\]\(\.\./(examples/\S+)\) `ends( --\w+)?` prints:\n\n((?:    .*\n)+)", page)
    yield "docs/LOOK.md, how many blocks", len(blocks) > 1
    for path, option, block in blocks:
        printed = says(look, "ends", *option.split(), f"{ROOT}/{path}")[1]
        yield f"docs/LOOK.md, {path}", printed == [line[4:] for line in block.splitlines()]
    with tempfile.TemporaryDirectory() as folder:
        path = os.path.join(folder, "text")
        table = dict(re.findall(r"^\| ([^|`]+) \| ((?:`[^`]+`(?:, )?)+) \|$", read("docs/PATTERNS.md"), re.M))
        for name, text, runs, _ in programs("docs/PATTERNS.md"):
            with open(path, "w") as file:
                file.write(text)
            found = [it[3] for it in map(LINE.fullmatch, says(look, "ends", path)[1]) if it]
            ends = table.get(name, dict(runs)["by workers"])
            yield f"docs/PATTERNS.md, {name}", sorted(found) == sorted(re.findall(r"`([^`]+)`", ends))
