"""Compares what the documents say with what it is about, subject by subject.  [write]

    python3 -m checks documents          says what is wrong; status 1 if something is
    python3 -m checks documents write    first writes what it can: tables of rows, vectors, lists of crates and figures

The subjects are modules of this folder:

- `tables`: tables of rows that aren't what the documents show, and files of `vectors` that aren't what the rows make them;
- `links`: a document that names a file or a heading that isn't there, or a part of a program that no example has; an example
  that isn't shown, or says that it prints something else; a refused text that no document names; a program on one line;
  a picture that isn't what its script draws;
- `instructions`: words and operands of an instruction in LANGUAGE.md, or a number of operands on its stack, that Shape.antt of
  sts_code doesn't have;
- `codes`: a cause of an instruction, or a cause in the index of codes, that LANGUAGE.md lacks;
- `contracts`: a line of a contract that no source has, a function or a clause that PROOFS.md names and its file doesn't have;
- `java`: lines of a Java program that its file doesn't have; figures of jdk/README.md that aren't those of a run of
  jdk/check.py; a wrong count of differences; an instruction that the table of the API in JDK.md lacks;
- `constants`: another version, kit or number of states than the programs have;
- `crates`: floors in crates/README.md that don't fit crates.txt; a crate there without the crates that it uses;
  an edit that doesn't say what it makes wrong; decisions next to a page that doesn't link to them; proofs used of another
  crate from a file that isn't called `*Lemmas`;
- `figures`: a table of SPEED.md that doesn't show the last figures of bench/figures.csv;
- `answers`: more long answers in proofs than checks/answers.most allows.
"""
import importlib
import sys

from checks.documents.pages import Wrong

SUBJECTS = ("tables", "links", "instructions", "codes", "contracts", "java", "constants", "crates", "figures", "answers")


def wrong(subject, is_writing):
    """Returns the first thing that is wrong with a subject, or None."""
    try:
        importlib.import_module(f"checks.documents.{subject}").check(is_writing)
    except Wrong as error:
        return str(error)
    return None


def main():
    found = [it for it in (wrong(subject, sys.argv[1:] == ["write"]) for subject in SUBJECTS) if it]
    for it in found:
        print(f"checks documents: {it}", file=sys.stderr)
    return 1 if found else 0
