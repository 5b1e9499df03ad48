"""Finds the functions that sources mark with `#[inline(always)]`, `#[inline(never)]` or `#[cold]`, by their paths.

`rt try` forgets these marks. A proved build has them, and without them a run takes a third more instructions.
"""
import os
import re

MARK = re.compile(r"\s*#\[(inline\(always\)|inline\(never\)|cold)\]")
FN = re.compile(r"\s*(?:pub(?:\([a-z]+\))?\s+)?(?:const\s+)?(?:unsafe\s+)?(?:extern\s+\"C\"\s+)?fn\s+(\w+)")
BLOCK = re.compile(r"(?:unsafe\s+)?(impl|trait)\b(.*)")
WORDS = {"inline(always)": "alwaysinline", "inline(never)": "noinline", "cold": "cold"}


def without_generics(text):
    """Returns the text without its angle brackets and all that is between them."""
    kept, depth, last = [], 0, ""
    for it in text:
        if it == "<":
            depth += 1
        elif it == ">" and last != "-":
            depth -= 1
        elif depth == 0:
            kept.append(it)
        last = it
    return "".join(kept)


def owner_of(kind, head):
    """Returns the name that comes before those of a block's functions: that of the type, and then that of the trait."""
    head = without_generics(head).split("{")[0].split(" where ")[0].strip().lstrip("!")
    if kind == "trait":
        return re.sub(r"\W.*", "", re.split(r"[:\s(]+", head.replace("&", "").replace("'", "").strip())[0])
    names = [re.sub(r"\W.*", "", it.split("::")[-1].strip("&' ")) for it in reversed(head.split(" for "))]
    return "".join(it[:1].upper() + it[1:] for it in names)


def of_file(path, module):
    """Yields the path of each marked function of a file, and the words of its marks."""
    owner, marks = None, []
    with open(path, errors="replace") as file:
        lines = file.readlines()
    for line in lines:
        block = BLOCK.match(line)
        if block:
            owner = owner_of(block[1], block[2])
        elif line.startswith("}"):
            owner = None
        mark = MARK.match(line)
        if mark:
            marks.append(WORDS[mark[1]])
            continue
        fn = FN.match(line)
        if fn:
            if marks:
                inner = [owner, fn[1]] if owner and line[0] in " \t" else [fn[1]]
                yield "::".join([*module, *inner]), marks
            marks = []


def below(root, name):
    """Returns the marks of the functions of a crate whose sources lie in this folder, by their paths."""
    found = {}
    for at, _, files in os.walk(root):
        for file in files:
            if not file.endswith(".rt"):
                continue
            parts = os.path.relpath(os.path.join(at, file), root)[:-3].split(os.sep)
            module = [name] + [it for it in parts if it not in ("lib", "main", "mod")]
            for function, marks in of_file(os.path.join(at, file), module):
                found.setdefault(function, set()).update(marks)
    return found
