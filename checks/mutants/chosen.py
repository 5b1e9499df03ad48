"""Builds many wrong bodies into one program, in which a table of bytes chooses the one that runs. planted.py uses it.

Each changed function gets all its bodies, and calls a function that reads the table:

    let planted = planted_body();
    if planted == 3 { BODY 3 } else if planted == 7 { BODY 7 } else { THE BODY AS IT IS }

The table says 0, so the program does as it should. `choose` writes another number into a copy of the program. The table is
read in 128 steps, from place to place: a compiler can't do that beforehand. It has more than 1,024 bytes: in a shorter one
LLVM looks for the place of a number, and compares places in place of what was read.
"""
import collections
import os
import re
import stat

HEAD = re.compile(r'( *)(?:(?:pub(?:\(\w+\))?|const|unsafe|extern "C") )*fn \w')
HOPS, SIZE, MARK = 128, 2048, b"The byte before these says which wrong body runs."
TABLE = bytes([*range(1, HOPS), 0]) + MARK
READER = f"""
static PLANTED: [u8; {SIZE}] = [{', '.join(map(str, TABLE.ljust(SIZE, b'.')))}];

fn planted_body() -> u8 {{
    let mut at: u8 = 0;
    for _ in 0..{HOPS} {{
        at = PLANTED[at as usize];
    }}
    at
}}
"""


def body_at(lines, number):
    """Returns the lines that open and close the body of the function around a line, or none if there is no function."""
    for head in range(number, -1, -1):
        found = HEAD.match(lines[head])
        if found:
            break
    else:
        return None
    depth = found[1]
    opens = next((at for at in range(head, len(lines)) if re.match(rf"{depth}(\S.* )?{{$", lines[at])), len(lines))
    closes = next((at for at in range(opens, len(lines)) if lines[at] == f"{depth}}}"), 0)
    return (opens, closes) if opens < number < closes else None


def is_addition(old, new):
    """Returns whether a change puts an item in the place of a comment: it changes nothing where nobody uses the item."""
    return old.strip().startswith("//") and HEAD.match(new) is not None


def parts_of(body, texts):
    """Returns the bodies of the functions that a body changes, by their file and place, as lines; none if it changes more."""
    parts = {}
    for path, old, new in body.changes:
        if is_addition(old, new):
            continue
        lines = texts[path].split("\n")
        number = next(at for at, line in enumerate(lines) if old in line)
        place = body_at(lines, number)
        if not place:
            return None
        opens, closes = place
        part = parts.setdefault((path, *place), lines[opens + 1 : closes])
        part[number - opens - 1] = part[number - opens - 1].replace(old, new)
    return parts


def with_bodies(text, places):
    """Returns the text of a file with other bodies of functions, by their places and numbers."""
    lines = text.split("\n")
    for (opens, closes), others in sorted(places.items(), reverse=True):
        chain = ["let planted = planted_body();"]
        for number, part in others:
            chain += [f"if planted == {number} {{", *part, "} else"]
        lines[opens + 1 : closes] = [*chain, "{", *lines[opens + 1 : closes], "}"]
    return "\n".join(lines) + READER


def put(bodies, tree):
    """Puts bodies into a copy of the sources. Returns the numbers of those that can be chosen there, by their names."""
    texts, numbers, places, additions = {}, {}, collections.defaultdict(lambda: collections.defaultdict(list)), {}
    for path in {path for body in bodies for path, _, _ in body.changes}:
        with open(f"{tree}/{path}") as file:
            texts[path] = file.read()
    for body in bodies:
        parts = parts_of(body, texts)
        if not parts:
            continue
        numbers[body.name] = len(numbers) + 1
        for (path, *place), lines in parts.items():
            places[path][tuple(place)].append((numbers[body.name], lines))
        additions.update({it: None for it in body.changes if is_addition(*it[1:])})
    for path in places:
        text = with_bodies(texts[path], places[path])
        with open(f"{tree}/{path}", "w") as file:
            file.write(text)
    for path, old, new in additions:
        with open(f"{tree}/{path}") as file:
            text = file.read()
        with open(f"{tree}/{path}", "w") as file:
            file.write(text.replace(old, new))
    return numbers


def choose(program, number, to):
    """Writes a copy of a program in which the body of this number runs, and returns its path."""
    with open(program, "rb") as file:
        code = file.read()
    if MARK not in code:
        raise ValueError(f"{program} has no table that chooses a body")
    os.makedirs(os.path.dirname(to), exist_ok=True)
    with open(to, "wb") as file:
        file.write(code.replace(b"\0" + MARK, bytes([number]) + MARK))
    os.chmod(to, os.stat(to).st_mode | stat.S_IXUSR)
    return to
