"""The refused texts that the documents show, each with the accepted text that mends it.

A block "```diff" has both: a line with `-` is only in the refused text, and a line with `+` only in the accepted one. A
comment `; 9 times` stands for that many lines, and `; this line and the one above, 9 times` for that many pairs of lines. Below a
line "In [NAME](../examples/refused/NAME.sts):" the block is a part of that file, and is mended there. Below the block is
what `look explain` prints of the refused text.
"""
import re
from typing import NamedTuple
from checks.programs import ROOT

PAGES = ["docs/VERIFIER.md", "docs/PATTERNS.md"]
REFUSED = "examples/refused"
SHOWN = re.compile(r"^(?:(?:[^\n]*\. )?In \[(\w+)\]\(\.\./examples/refused/(\w+)\.sts\):\n\n)?```diff\n(.*?)^```\n((?:\n(?:    [^\n]*\n)+)?)", re.M | re.S)


class Pair(NamedTuple):
    heading: str  # the title of the section
    refused: str  # the two texts
    accepted: str
    explained: str  # what the page shows that `look explain` prints of the refused one
    after: int  # where the block ends in the page


def whole(lines):
    """Returns the lines of a text. A comment may say how often lines are repeated."""
    found = []
    for line in lines:
        repeated = re.fullmatch(r"(.*?) *; (this line and the one above, )?(\d+) times", line)
        if repeated and repeated[2]:
            found[-1:] = [found[-1], repeated[1]] * int(repeated[3])
        elif repeated:
            found += [repeated[1]] * int(repeated[3])
        else:
            found.append(line)
    return "".join(f"{it}\n" for it in found)


def pairs(path):
    """Yields each refused text of a document, with its accepted form."""
    with open(f"{ROOT}/{path}") as file:
        page = file.read()
    for found in SHOWN.finditer(page):
        heading = re.findall(r"^#+ (.*)$", page[: found.start()], re.M)[-1]
        lines = found[3].splitlines()
        if not all(it[:1] in "-+ " and it for it in lines) or found[1] != found[2]:
            raise ValueError(f"{path}: a line of a text under {heading!r} begins otherwise, or a file has another name")
        refused, accepted = (whole(it[1:] for it in lines if it[0] != sign) for sign in "+-")
        if found[1]:
            with open(f"{ROOT}/{REFUSED}/{found[1]}.sts") as file:
                text = file.read()
            if text.count(refused) != 1:
                raise ValueError(f"{path}: {found[1]}.sts doesn't have the lines that are shown of it, once")
            refused, accepted = text, text.replace(refused, accepted)
        elif len(lines) - sum(it[0] == "+" for it in lines) > 10:
            raise ValueError(f"{path}: the refused text under {heading!r} is longer than ten lines: it has to be a file of {REFUSED}")
        yield Pair(heading, refused, accepted, found[4].lstrip("\n").replace("    ", "", 1).replace("\n    ", "\n"), found.end(3) + 4)


def places(text, name):
    """Returns the line of each instruction of a function, and the place of each of its labels."""
    lines, labels, inside = [], {}, False
    for number, line in enumerate(text.split("\n"), 1):
        words = line.split(";")[0].split()
        if words[:1] == ["func"]:
            inside = words[1] == name
        elif inside and words and words[0].endswith(":"):
            labels[words[0][:-1]] = len(lines)
        elif inside and words and words != ["end"]:
            lines.append(number)
    return lines, labels


def verdict(pair):
    """Returns the line of `sts verify` for a refused text, by the first line of what `look explain` prints."""
    first = pair.explained.split("\n")[0]
    found = re.fullmatch(r"refused (V\d+) in (\w+), (?:line (\d+): (.*)|at its end)", first)
    if not found:
        raise ValueError(f"{pair.heading!r}: no explanation of a refusal: {first!r}")
    lines, labels = places(pair.refused, found[2])
    place = lines.index(int(found[3])) if found[3] else len(lines)
    words = " ".join(f"L{labels[it]}" if it in labels else it for it in found[4].split(" ")) if found[3] else "end"
    return f"refused {found[1]} in {found[2]} at {place}: {words}"
