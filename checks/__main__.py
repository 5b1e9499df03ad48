"""Runs one check.

    python3 -m checks                     lists the checks
    python3 -m checks NAME [WORD ..]      runs one of them, at the top of the repository
    python3 PATH/checks NAME [WORD ..]    the same, in any folder

A check is a module of one of the folders below, with a function `main`. Its first lines say what it does and which words it
takes. Words that a program is named by are the same for all (see programs.py):

    ..                the proved programs, which ./sts and ./look build
    .. PATH ..        the program at PATH, or the programs, if the check tests several
    .. --unproved     the programs without proofs, which are built first if a source is newer
"""
import importlib
import os
import sys

HERE = os.path.dirname(os.path.realpath(__file__))
FOLDERS = ("documents", "shown", "tests", "mutants", "models", "build")


def folder_of(name):
    """Returns the folder of a check, or None if there is no check of this name."""
    for folder in FOLDERS:
        path = f"{HERE}/{folder}/{name}.py"
        if name.isidentifier() and os.path.exists(path):
            with open(path) as file:
                if "\ndef main():" in file.read():
                    return folder
    return None


def names():
    """Returns the names of the checks, folder by folder."""
    files = [(folder, it.removesuffix(".py")) for folder in FOLDERS for it in sorted(os.listdir(f"{HERE}/{folder}"))]
    return [name for folder, name in files if folder_of(name) == folder]


def listed():
    """Prints the first sentence of each check."""
    for name in names():
        with open(f"{HERE}/{folder_of(name)}/{name}.py") as file:
            print(f"{name:14}{file.readline().strip().strip(chr(34))}")


def main():
    # (the folder of this file has names that a module of Python's library might have one day)
    sys.path[0] = os.path.dirname(HERE)
    words = sys.argv[1:]
    if not words or words[0] in ("-h", "--help"):
        print(__doc__)
        listed()
        return 0
    name = words[0].removesuffix(".py")
    folder = folder_of(name)
    if not folder:
        print(f"checks: there is no check {words[0]}: {', '.join(names())}", file=sys.stderr)
        return 2
    sys.argv = [f"checks {name}", *words[1:]]
    return importlib.import_module(f"checks.{folder}.{name}").main()


if __name__ == "__main__":
    sys.exit(main())
