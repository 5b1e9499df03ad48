"""The causes in the table of instructions, and the index of codes, in LANGUAGE.md."""
import os
import re

from checks.documents.instructions import table, words_of
from checks.documents.pages import FOLDER, fail, read
from checks.programs import ROOT


def instructions(path):
    """Fails if the table of instructions lacks a cause of a row that refuses an instruction, or names one that no row has."""
    known = {}
    for line in table():
        for word in words_of(line):
            known[word] = {*re.findall(r"V\d+", line.strip("|").split("|")[-1]), "V1", "V2", "V3", "V7", "V8"}
    met = set()
    for name in os.listdir(f"{ROOT}/{FOLDER}"):
        for cause, word in re.findall(r"^= 4 refused (V\d+) in \w+ at \d+: (?!end$)(\w+)", read(f"{FOLDER}/{name}"), re.M):
            met.add((word, cause))
            if cause not in known[word]:
                fail(f"{path} doesn't say that {word} is refused as {cause}, as in {name}")
    shown = {(word, cause) for word, causes_of in known.items() for cause in causes_of if cause not in ("V1", "V2", "V3", "V7", "V8")}
    if shown - met:
        fail(f"{path} names causes of instructions that no row has: {sorted(shown - met)}")


def index(path, causes_path):
    """Fails if the index of codes doesn't name each cause of another document in order, with the address of its section."""
    found = re.findall(r"\[(V\d+) (\w+)\]\(VERIFIER\.md#([\w-]+)\)", read(path).split("\n## Index of codes\n")[1])
    titles = re.findall(r"^### (V\d+) (\w+)$", read(causes_path), re.M)
    if not titles or found != [(code, name, f"{code}-{name}".lower()) for code, name in titles]:
        fail(f"{path} doesn't have the causes of {causes_path} in its index of codes")


def check(is_writing):
    instructions("docs/LANGUAGE.md")
    index("docs/LANGUAGE.md", "docs/VERIFIER.md")
