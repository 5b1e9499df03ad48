"""The pages of this repository, and what several checks read in them: programs, commands, and parts of files."""
import functools
import itertools
import os
import re
import textwrap

from checks.programs import ROOT

FOLDER = "crates/tests_rows/data"
DOCUMENTS = ["README.md", "CONTRIBUTING.md", "checks/README.md", "crates/README.md", "examples/README.md", "jdk/README.md",
             *(f"docs/{it}" for it in sorted(os.listdir(f"{ROOT}/docs")) if it.endswith(".md"))]
PATTERN = re.compile(r"In \[(?:\w+)\]\(\.\./(examples/(?:patterns/)?\w+\.sts)\):")
PART = 10  # lines of a longer program that a document shows
STATUS = {"success": 0, "failed": 1, "error": 3, "refused": 4, "fault": 5, "running": 5}


class Wrong(Exception):
    """What is wrong with a document."""


def read(path):
    with open(f"{ROOT}/{path}") as file:
        return file.read()


def fail(what):
    raise Wrong(what)


def dedented(block):
    """Returns a block without the four blanks before each line."""
    return re.sub("^    ", "", block, flags=re.M)


def flush(lines):
    return textwrap.dedent("\n".join(lines))


def is_part(block, text):
    """Returns whether a block has at most ten lines, and a text has these, perhaps further to the right. Between two of them
    the text may have others if the block has a line `// ..` or `; ..` there."""
    lines, count = text.splitlines(), 0
    for part in re.split(r"^(?://|;) \.\.\n", block, flags=re.M):
        shown = part.splitlines()
        places = [at for at in range(len(lines) - len(shown) + 1) if flush(lines[at : at + len(shown)]) == flush(shown)]
        if not shown or not places:
            return False
        lines, count = lines[places[0] + len(shown) :], count + len(shown)
    return count <= PART


def programs(path):
    """Returns each program of a document with what is shown below it: a name, the text, each (asked, printed) of its table, and
    (line, printed) for each line that it needs: without that line it is refused. A program is a block, or the file of
    examples/patterns that the line above the block names; then the block is a part of it."""
    found, heading, named, lines = [], "", None, iter(read(path).splitlines())
    for line in lines:
        without = re.fullmatch(r"Without any `([^`]*)`, `verify` prints `([^`]*)`\.", line)
        if without:
            found[-1][3].append(without.groups())
        elif line.startswith("#"):
            heading = line.strip("# ")
        elif PATTERN.search(line):
            named = PATTERN.search(line)[1]
        elif line.startswith("```"):
            block = "".join(f"{it}\n" for it in itertools.takewhile(lambda it: it != "```", lines))
            if line == "```" and named and not is_part(block, read(named)):
                fail(f"{path} shows lines that {named} doesn't have, or too many: {block.splitlines()[0]!r}")
            if line == "```":
                found.append((heading, read(named) if named else block, [], []))
            named = None
        elif line.startswith("| Trace |"):
            table = list(itertools.takewhile(lambda it: it.startswith("|"), lines))[1:]
            found[-1][2].extend(tuple(cell.strip() for cell in it.strip("|").split("|")[:2]) for it in table)
    return found


def shown_commands(path):
    """Returns the commands with files that a document shows: mode, text, trace, and the lines that are printed."""
    shown = r"`?\./sts (verify|plain) (examples/\S+?)(?: (examples/\S+?))?`?"
    for mode, text, trace, printed in re.findall(rf"^\| {shown} \| (.*?) \|", read(path), re.M):
        yield mode, text, trace, printed.replace("`", "").replace("<br>", " / ")
    block = rf"{shown}(?:[^\S\n]|,|\n\n)[^\n]*prints\n\n((?:    .*\n)+)"
    for mode, text, trace, printed in re.findall(block, read(path)):
        yield mode, text, trace, " / ".join(line.strip() for line in printed.strip().splitlines())


@functools.cache
def crates():
    """Returns for each crate of crates.txt the crates of the repository that it uses."""
    used = {re.split("[ :]", line)[0]: line.partition(":")[2].split() for line in read("crates.txt").splitlines()}
    return {name: [it for it in others if it in used] for name, others in used.items()}


def page(crate):
    """Returns the path of a crate's README.md, which each crate has."""
    return f"crates/{crate}/README.md"


def designs():
    """Returns the paths of the pages with decisions of a crate."""
    return [it for it in (f"crates/{name}/DESIGN.md" for name in crates()) if os.path.exists(f"{ROOT}/{it}")]


def headings(path):
    """Returns the anchors of a document's headings."""
    found = re.findall(r"^#+ (.*)$", read(path), re.M)
    return [re.sub(r"[^\w\- ]", "", it.lower()).replace(" ", "-") for it in found]
