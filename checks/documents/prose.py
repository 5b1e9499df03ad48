"""Finds sentences that are hard to read, in documents and in comments.

    python3 -m checks prose            the gate's question: status 1 if there is a finding in a page that has to be clean, or if the
                               whole tree has more findings than checks/prose.most allows
    python3 -m checks prose PATH ..    prints the findings of these files; status 1 if there is one
    python3 -m checks prose tree       prints the findings of the whole tree, with how many there are of each habit
    python3 -m checks prose lower      writes the number of findings of the whole tree into checks/prose.most, if it has fallen

A finding is printed as `FILE:LINE: HABIT: SENTENCE`. A sentence is reported once for each habit that it has. Headings, code
blocks, the targets of links and `<!-- -->` are not read, and code in backticks counts as one word. A table cell that is all code,
as a list of crates, may have any length.
"""
import collections
import glob
import os
import re
import sys
from checks.programs import ROOT

MOST = f"{ROOT}/checks/prose.most"
CLEAN = ["*.md", "docs/*.md", "jdk/*.md", "examples/**/*.md", "examples/**/*.sts", "checks/README.md", "crates/README.md", "crates/*/*.md"]
TREE = [*CLEAN, "crates/*/src/**/*.rt", "crates/*/specs/**/*.antt", "crates/*/proofs/**/*.antt"]
COMMENT = {".rt": r"\s*//[/!]?(?: |$)", ".antt": r"\s*--(?: |$)", ".sts": r"[^;]*;(?: |$)"}
WORDS, LINES, WIDTH, CELL = 30, 6, 100, 200  # words a sentence; lines a paragraph; characters a line; characters a cell

IS = r"(?:is|are|was|were|be|been|isn't|aren't|wasn't|weren't|being)"
START = r"(?:^|(?<=[.;:] )|(?<=[.;:] \()|(?<=; and )|(?<=, and ))"  # where a clause begins
PLACE = r"(?:in|at|under|between|for|before|outside|inside|among|round|there|after|below|above|free|behind|here|to|alone|apart)"
HABITS = {  # the pattern of each habit, in a sentence whose code is written as `x`
    "told": rf"(?<!joiner )(?<!scope )(?<!scopes )(?<!nobody )\b{IS} (?:also |always |never |then |so |too )*told\b"
            r"(?! of (?:an|this|its|no))|(?<!was )\btold (?:by|with|as|beside|here|so|on)\b|\bas told\b|\btells? of\b",
    "stands": rf"\b(?:that|[Ww]hat) st(?:ands?|ood)\b(?! for)|(?:\S+ ){{4,}}(?:\S*\b)st(?:ands?|ood|anding)\b(?! {PLACE}\b)",
    "want": r"\b[Ww]ant of\b|\bin want\b|\bwants?(?: a| an| it| one| which| Python| profile| for| them)\b|\bwanted is\b|\bits want\b",
    "who/what as noun": rf"{START}[Ww]ho(?:ever)? (?!is|are|owns|can|may)\w+ \w+|{START}[Ww]hichever (?:\S+ ){{4,}}"
                        rf"|{START}[Ww]hat (?:[^\s,:]+ ){{2,9}}(?:is|are|was|has|stays|adds|comes|becomes|goes) (?:\S+ ){{4,}}",
    "possessor first": rf"{START}[Oo]f (?!course|the kind)(?:[A-Zx]\S*|an?|the|these|this|each|every|two|such|it|what|which)\b"
                       r"(?! own) (?:\S+ ?){5,}",
    "condition first, inverted": rf"{START}(?:[Ss]o|[Bb]eside|[Uu]nder|[Bb]y) (?:\S+ ){{1,6}}(?:is|are|was|does|has) "
                                 r"(?:told|there|named|said)|(?:^|(?<=[.;] ))(?:Proved|Told|Drawn|Tried|Trusted|Wanted) (?:is|are|of)\b",
    "that-clause as subject": r"(?:^|(?<=[.;] ))That (?:an?|the|it|what|no|each|where|several|memory|some|x|its|they|room|this|these|two)\b"
                              r" (?:\S+ ){5,}",
    "chain of which": r"(?<!none )(?<!each )(?<!some )(?<!all )(?<!one )(?<!first )\bof which\b|\bwhose\b.*\b(?:which|whose)\b"
                      r"|\bwhich\b (?:\S+ ){7,}(?:which|whose)\b",
    "pronoun for a clause": r"\b[Ss]o too\b|\b[Tt]he same of\b|\bdo(?:es)? so\b|\bit is so\b|\bso of\b|\bjust so\b|\bso it stays\b"
                            r"|\bthe same (?:once|over|by)\b|\bthe one \w+ .*\bthe other \w+",
    "one, none, some": r"\bnone (?:only )?where\b|\bone exactly\b|\bthose (?:of|in|that)\b.*\bthose\b"
                       r"|\bthe ones? (?:that|of|which)\b.*\bone\b|\bsome (?:does|do|was|is)\b",
    "double negative": r"\bnone only where\b|\bno(?:ne)? (?:\S+ ){0,4}but (?!the first)|\bnothing but\b"
                       r"|\bno less than\b|\bnever (?:\S+ ){1,4}(?:not|no|none)\b|\bnot each\b|\bno other\b.*\bnor\b",
    "beside": r"\b[Bb]eside\b|\b[Bb]ut for\b|\banew\b|\bmended\b|\bcomes? to (?:no|a) fault\b|\bcomes? to (?:it|with)\b",
    "so many, so much": r"(?<!for )(?<!with )\bso (?:many|much|often)\b(?! that)|\bas (?:many|much) as\b.*\bas\b|\ba most\b",
    "where .. where": r"\b[Ww]here\b.*\b[Ww]here\b.*\b[Ww]here\b|\bexactly where\b.*\bwhere\b",
}
HABITS = {habit: re.compile(pattern) for habit, pattern in HABITS.items()}
SENTENCE = re.compile(r"\S.*?(?:[.?!](?=\)?\s+[A-ZV`x(*\"])|$)")


def paths(kinds):
    """Returns the files of these kinds, by their paths in the repository."""
    found = [it for kind in kinds for it in glob.glob(kind, root_dir=ROOT, recursive=True)]
    return sorted(dict.fromkeys(found))


def pieces_of_document(lines):
    """Yields each paragraph, list item and table cell: its first line, its kind, its lines."""
    code, piece, first = False, [], 0
    for number, line in enumerate(lines, 1):
        code ^= line.startswith("```")
        is_text = not code and line.strip() and not line.startswith(("```", "    ", "#", "|", "<!--", "!["))
        if piece and (not is_text or re.match(r"\s*([-*]|\d+\.) ", line)):
            yield first, "paragraph", piece
            piece = []
        if is_text:
            first = first if piece else number
            piece.append(re.sub(r"^\s*([-*]|\d+\.) ", "", line.strip()))
        elif line.startswith("|") and not code and not re.match(r"\|[-| ]+$", line):
            for cell in re.split(r"(?<!\\)\|", line.strip("|")):
                yield number, "cell", [cell.strip()]


def pieces_of_source(lines, kind):
    """Yields each comment, of a source or an example: its first line, its kind, its lines."""
    piece, first = [], 0
    for number, line in enumerate(lines, 1):
        found = re.match(COMMENT[kind], line)
        text = line[found.end():].strip() if found else ""
        if piece and (not text or kind == ".sts"):
            yield first, "comment", piece
            piece = []
        if text and not text.startswith(("----", "# Errors")):
            first = first if piece else number
            piece.append(text.strip("- "))


def pieces(path):
    """Yields the pieces of prose of a file."""
    kind = os.path.splitext(path)[1]
    with open(os.path.join(ROOT, path)) as file:
        lines = [*file.read().splitlines(), ""]
    return pieces_of_document(lines) if kind == ".md" else pieces_of_source(lines, kind)


def too_long(kind, lines):
    """Returns the habit of a piece that is too long, or nothing."""
    size = sum(len(line) + 1 for line in lines)
    if kind == "cell" and size > CELL and not re.fullmatch(r"`[^`]*`", lines[0]):
        return f"cell over {CELL} characters"
    if kind == "paragraph" and size > LINES * WIDTH or kind == "comment" and len(lines) > LINES:
        return f"paragraph over {LINES} lines"
    return None


def is_long(sentence):
    """Returns whether a sentence has too many words; those in brackets count as a sentence of their own."""
    counts = [len(re.findall(r"[\w'`]+(?:[-./]\w+)*", it)) for it in re.split(r"\(([^()]*)\)", sentence)]
    return max(sum(counts[::2]), *counts) > WORDS


def habits_of(sentence):
    """Yields each habit of a sentence."""
    if is_long(sentence):
        yield f"sentence over {WORDS} words"
    for habit, pattern in HABITS.items():
        if pattern.search(sentence):
            yield habit


def findings(path):
    """Yields each finding of a file: the path, its line, its habit, the sentence or the beginning of the piece."""
    for number, kind, lines in pieces(path):
        named = [re.sub(r"\[([^\]]*)\]\([^)]*\)", r"\1", line) for line in lines]
        habit = too_long(kind, named)
        if habit:
            yield path, number, habit, named[0][:60]
        plain = [re.sub(r"`[^`]*`(?:, `[^`]*`)*", "x", line) for line in named]
        begins = [sum(len(it) + 1 for it in plain[:count]) for count in range(len(plain))]
        for found in SENTENCE.finditer(" ".join(plain)):
            line = number + max(count for count, at in enumerate(begins) if at <= found.start())
            for habit in habits_of(found.group()):
                yield path, line, habit, found.group()


def show(found):
    """Prints each finding on a line."""
    for path, line, habit, sentence in found:
        print(f"{path}:{line}: {habit}: {sentence}")


def most():
    """Returns how many findings the whole tree may have."""
    with open(MOST) as file:
        return int(file.read())


def lower(count):
    """Writes down how many findings the whole tree has, if that is fewer than it may have."""
    if count > most():
        sys.exit(f"checks prose: {count} findings, and {most()} are allowed: this number only falls")
    with open(MOST, "w") as file:
        file.write(f"{count}\n")


def gate():
    """Returns the status of the gate's question, and prints what is wrong."""
    clean, count = paths(CLEAN), 0
    if "README.md" not in clean or not all(paths([it]) for it in TREE if "*/README.md" not in it):
        sys.exit("checks prose: the pages or the sources aren't where they should be")
    wrong = []
    for path in paths(TREE):
        found = list(findings(path))
        count += len(found)
        wrong += found if path in clean else []
    show(wrong)
    print(f"{count} findings in the whole tree, {most()} allowed; {len(wrong)} in {len(clean)} clean pages")
    if count > most():
        print("checks prose: the tree has more findings than checks/prose.most allows; `python3 -m checks prose PATH` shows those of a file")
    return 1 if wrong or count > most() else 0


def main():
    words = sys.argv[1:]
    if not words:
        return gate()
    whole = words in (["tree"], ["lower"])
    asked = paths(TREE) if whole else [os.path.relpath(it, ROOT) for it in words]
    found = [it for path in asked for it in findings(path)]
    if words == ["lower"]:
        lower(len(found))
        return 0
    show(found)
    if whole:
        for habit, count in collections.Counter(it[2] for it in found).most_common():
            print(f"{count:6} {habit}")
        print(f"{len(found):6} in all")
    return 1 if found else 0
