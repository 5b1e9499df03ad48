"""Finds the functions of a crate's source files, and cuts functions out of a copy of a crate.

A function that is cut out keeps its signature and its contract. Its body and its proof are gone. The proof of a function that calls
it knows no more of it than its contract says. So whoever tries a wrong body need not prove the functions that it calls.
"""
import os
import re

from checks.mutants.chosen import body_at

FUNCTION = re.compile(r"^( *)(?:pub(?:\(\w+\))? )?(?:const |unsafe )*fn (\w+)")
IMPL = re.compile(r"^impl(?:<[^{]*?>)? (?:(?:\w+::)*(?P<trait>\w+)(?:<[^{]*>)? for )?(?P<type>\w+)(?:<[^{]*>)? \{")
TYPE = re.compile(r"^(?:pub(?:\(\w+\))? )?(?:struct|enum) (\w+)", re.M)
PROOFS = ("Answers.antt", "Invariants.antt")
# (a hole in place of this would have the prover print the whole statement as a goal)
TAKEN = """use Rattle.{path}.Statement as stated

axiom pub {name}_spec : {{M : Type 1}} → stated.statement M
"""


def module_of(file):
    """Returns the path of a source file's module below its crate, as a list of names."""
    names = file.removeprefix("src/").removesuffix(".rt").split("/")
    return [it for it in names if it not in ("lib", "main", "mod")]


def functions_in(file, text):
    """Yields the functions of a source file: the end of each name, as the prover has it, with the first and the last of its lines.
    The attributes above a function are its first lines."""
    lines, owner, begun, attributes = text.split("\n"), [], None, None
    for at, line in enumerate(lines, 1):
        if line.lstrip().startswith("#["):
            attributes = attributes or at
        elif not line or line.lstrip().startswith(("//", "}")):
            attributes = None
        if line and line[0] not in " }":
            found = IMPL.match(line)
            # (the prover's names of functions in a trait, or in another impl, aren't guessed)
            owner = [found["type"] + (found["trait"] or "")] if found else [""] if line.startswith(("impl", "trait", "pub trait")) else []
        found = FUNCTION.match(line)
        if found and begun is None and "" not in owner and len(found[1]) == (4 if owner else 0):
            # (an impl may be in another module than its type, so a method's name begins with the type)
            begun = attributes or at, found[1], "::".join([*(owner or module_of(file)), found[2]])
        if begun and re.match(rf"{begun[1]}\}}|{begun[1]}\S.*\}}$", line) and not line.startswith(f"{begun[1]}{{"):
            yield begun[2], begun[0], at
            begun = None


def function_at(file, text, line):
    """Returns the name of the function that a line is in, or none."""
    return next((name for name, first, last in functions_in(file, text) if first <= line <= last), None)


def sources(room):
    """Returns the text of each source file of a crate."""
    found = {}
    for at, _, names in os.walk(f"{room}/src"):
        for path in (f"{at}/{it}" for it in names):
            with open(path, encoding="utf-8") as text:
                found[os.path.relpath(path, room)] = text.read()
    return found


def homes_of(texts):
    """Returns the module of each type of a crate, by name. A name that two types have isn't among them."""
    found = {}
    for file, text in texts.items():
        for name in TYPE.findall(text):
            found[name] = None if name in found else module_of(file)
    return {name: module for name, module in found.items() if module is not None}


def take_for_proved(room, crate, path):
    """Puts an axiom in the place of a function's proof. The prover then says that the function isn't proved."""
    folder = f"{room}/proofs/{'/'.join(path)}"
    os.makedirs(folder, exist_ok=True)
    for it in filter(os.path.exists, (f"{folder}/{it}" for it in PROOFS)):
        os.remove(it)
    with open(f"{folder}/Proof.antt", "w", encoding="utf-8") as proof:
        proof.write(TAKEN.format(path=".".join([crate, "proofs", *path]), name=path[-1]))


def without_body(lines, last):
    """Takes the body of a function, whose last line this is, out of the lines of a file, and returns whether it has one to take out.
    Each other line keeps its number."""
    body = body_at(lines, last - 2)
    if not body or body[1] != last - 1:
        return False
    opens, closes = body
    lines[opens + 1 : closes] = ["loop {}", *[""] * (closes - opens - 2)]
    return True


def cut(room, crate, kept):
    """Cuts all functions out of a copy of a crate, except those of these names. Some more stay, such as those of an impl of a trait."""
    texts = sources(room)
    homes = homes_of(texts)
    for file, text in texts.items():
        lines = text.split("\n")
        for name, _, last in functions_in(file, text):
            owner, *names = name.split("::")
            path = [*homes.get(owner, []), owner, *names] if owner[0].isupper() else [owner, *names]
            is_known = owner in homes or not owner[0].isupper()
            if name not in kept and is_known and without_body(lines, last):
                take_for_proved(room, crate, path)
        with open(f"{room}/{file}", "w", encoding="utf-8") as to:
            to.write("\n".join(lines))
