"""The commands that README.md and docs/TUTORIAL.md show, with what they print on standard output.

A block "```console" has commands, each after `$ `, and below each command what it prints. A block below a line that ends with
"as `NAME`:" is the content of that file, and its folder is made. The commands of a page run from top to bottom in one new
folder, which has the repository's `examples` and `checks`. There `./sts` and `./look` start the two programs, also after
the word `--unproved`.
"""
import os
import re
import subprocess
import tempfile

from checks.programs import ROOT

PAGES = ["README.md", "docs/TUTORIAL.md"]
BLOCK = re.compile(r"(?:as `([\w./]+)`:\n\n)?^```(\w*)\n(.*?)^```$", re.M | re.S)
COMMAND = re.compile(r"^\$ (.*)\n((?:(?!\$ ).*\n)*)", re.M)
START = '#!/bin/sh\n[ "$1" != --unproved ] || shift\nexec {} "$@"\n'


def furnish(folder, programs):
    """Puts the programs, the examples and the scripts into a folder."""
    for name, program in zip(("sts", "look"), programs):
        with open(f"{folder}/{name}", "w") as file:
            file.write(START.format(os.path.realpath(program)))
        os.chmod(f"{folder}/{name}", 0o755)
    for name in ("examples", "checks"):
        os.symlink(f"{ROOT}/{name}", f"{folder}/{name}")


def printed(folder, command):
    """Returns what a shell prints on standard output for a command."""
    done = subprocess.run(["bash", "-c", command], cwd=folder, stdin=subprocess.DEVNULL, stdout=subprocess.PIPE, text=True, timeout=120)
    return done.stdout


def renewed(page, folder, tried):
    """Returns a page with what its commands print now, and appends each command, what is shown and what is printed."""

    def command(found):
        tried.append((found[1], found[2], printed(folder, found[1])))
        return f"$ {found[1]}\n{tried[-1][2]}"

    def block(found):
        name, kind, lines = found.groups()
        if name:
            os.makedirs(os.path.dirname(f"{folder}/{name}"), exist_ok=True)
            with open(f"{folder}/{name}", "w") as file:
                file.write(lines)
        return found[0].replace(lines, COMMAND.sub(command, lines)) if kind == "console" else found[0]

    return BLOCK.sub(block, page)


def shown(sts, look, is_writing=False):
    """Yields for each command whether it prints what is shown of it. Or writes what each command prints now."""
    for path in PAGES:
        tried = []
        with open(f"{ROOT}/{path}") as file, tempfile.TemporaryDirectory() as folder:
            furnish(folder, (sts, look))
            page = renewed(file.read(), folder, tried)
        if is_writing:
            with open(f"{ROOT}/{path}", "w") as file:
                file.write(page)
        yield f"{path} shows a command", tried != []
        for name, shown_now, printed_now in tried:
            yield f"{path}: $ {name}", is_writing or shown_now == printed_now, f"\nshown:\n{shown_now}printed:\n{printed_now}"
