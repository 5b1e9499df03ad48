"""Asks any program that takes the words of `sts` for the answers of all rows.  [PROGRAM|--unproved] [TABLE ..]

It prints each answer that differs, with its file and line, and then how many answers it compared and how many are wrong;
status 1 if one is. The rows are those of crates/tests_rows/data, and notation.py reads them.
"""
import os
import sys
import tempfile

from checks import notation, programs

MOST = 1_048_576  # The bytes that a text may have.


class Program:
    """A program, and a folder with the files that it reads."""

    def __init__(self, path, folder):
        self.path, self.folder = path, folder

    def answer(self, mode, text, events=b""):
        """Returns the status and what is printed."""
        words = [mode, self.file("text", text)]
        if mode == "joined":
            words = []
        elif mode == "outside":
            words = ["run", self.file("text", text), "--workers", "1", "--outside", self.file("outside", events)]
        elif mode in ("plain", "replay"):
            words += [self.file("trace", events)]
        return programs.says(self.path, *words, given=text if mode == "joined" else b"", seconds=None, is_text=False)

    def file(self, name, content):
        return programs.kept(self.folder, name, content)

    def answers(self, text, asked, events, expected):
        """Returns pairs of an answer and the expected one."""
        if asked == "run":
            yield self.answer("plain", text, events), expected
            verdict = self.answer("verify", text)
            is_refused = verdict[0] == 4 and expected[0] != 3
            yield self.answer("replay", text, events), verdict if is_refused else expected
            return
        yield self.answer(asked, text, events), expected
        if asked == "list" and expected[0] == 0 and expected[1] is not None and len(expected[1]) <= MOST:
            yield self.answer("list", expected[1]), expected


def file_of(name):
    """Returns the path of a table: the name of one of crates/tests_rows/data, or a path."""
    for path in (f"{notation.DATA}/{name.removesuffix('.rows')}.rows", name):
        if os.path.isfile(path):
            return path
    raise SystemExit(f"rows: there is no table {name}: crates/tests_rows/data has the tables")


def main():
    [path], names = programs.taken(sys.argv[1:], "sts")
    names = [file_of(it) for it in names or notation.tables()]
    compared = wrong = 0
    with tempfile.TemporaryDirectory() as folder:
        program = Program(path, folder)
        for name in names:
            for number, text, asked, events, expected in notation.rows(name):
                compared += 1
                differ = [it for it in program.answers(text, asked, events, expected) if (it[0] if it[1][1] is not None else (it[0][0], None)) != it[1]]
                wrong += bool(differ)
                for answer, wanted in differ:
                    print(f"{os.path.basename(name)} line {number}: {answer}, expected {wanted}")
    print(f"{compared} answers, {wrong} wrong")
    return wrong > 0
