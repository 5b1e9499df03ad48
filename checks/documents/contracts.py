"""The contracts, clauses and definitions that PROOFS.md shows and names."""
import os
import re

from checks.documents.pages import fail, read
from checks.programs import ROOT


def shown_contracts(path, parts=("src", "specs")):
    """Fails if a contract, a definition or a proof that a document shows has a line that no source has."""
    folders = [f"{ROOT}/crates/{it}/{part}" for it in os.listdir(f"{ROOT}/crates") for part in parts]
    files = [f"{at}/{it}" for folder in folders for at, _, names in os.walk(folder) for it in names]
    sources = {line.strip() for it in files for line in open(it)}
    for block in re.findall(r"```text\n(.*?)```", read(path), re.S):
        for line in block.splitlines():
            if line.strip() not in sources:
                fail(f"{path} shows a contract with the line {line.strip()!r}, which no source has")


def named_clauses(path):
    """Fails if the table of promises names a function, a clause or a definition that its file doesn't have."""
    table = re.search(r"^\| Promise \|.*?\n\n", read(path), re.M | re.S)[0]
    for line in table.rstrip().splitlines()[2:]:
        source = ""
        for part in line.strip("|").split("|")[1].split(";"):
            names = re.findall(r"`([^`]+)`", part)
            paths = [it for it in names if it.endswith((".rt", ".antt"))]
            source = "".join(read(f"crates/{it}") for it in paths) or source
            for name in (it.split("::")[-1] for it in names if it not in paths):
                if not re.search(rf"\bfn {name}\b|\bensures {name} {{|^abbrev pub {name} :|^pub (?:data|record) {name}\b", source, re.M):
                    fail(f"{path} names {name}, which {' and '.join(paths) or 'the file before it'} doesn't have")


def check(is_writing):
    shown_contracts("docs/PROOFS.md")
    shown_contracts("docs/PROVING.md", ("src", "specs", "proofs"))
    named_clauses("docs/PROOFS.md")
