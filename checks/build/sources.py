"""Which sources and definitions a program is built of, and a file by which the launcher finds a newer one quickly."""
import contextlib
import os
import shlex
from checks.programs import ROOT



def crates():
    """Returns for each crate of the repository the crates of the repository that it uses."""
    lines = [it.split("#")[0].strip() for it in open(f"{ROOT}/crates.txt")]
    listed = dict(it.split(":", 1) for it in lines if it)
    names = {key.split()[0]: value.split() for key, value in listed.items()}
    return {name: [it for it in below if it in names] for name, below in names.items()}


def needed(below, name, found):
    """Returns the crates that this one depends on and itself, lowest first."""
    for it in below[name]:
        if it not in found:
            needed(below, it, found)
    if name not in found:
        found.append(name)
    return found


def paths(names):
    """Returns the paths of the sources and definitions of these crates, and of their folders, below the repository."""
    found = ["crates.txt"]
    for folder in [f"crates/{name}/{it}" for name in names for it in ("src", "specs")]:
        for at, _, files in os.walk(f"{ROOT}/{folder}"):
            at = os.path.relpath(at, ROOT)
            found += [at, *(f"{at}/{it}" for it in sorted(files))]
    return found


def is_current(program, crate):
    """Returns whether the program of a crate is there and newer than all that it is built of."""
    with contextlib.suppress(FileNotFoundError):
        newest = max(os.path.getmtime(f"{ROOT}/{it}") for it in paths(needed(crates(), crate, [])))
        return os.path.getmtime(program) > newest
    return False


def write(program, crate):
    """Writes beside a program, as PROGRAM.sources, the test whether something that it is built of is newer.

    The launcher reads it only if it is newer than the program, since another build leaves it as it was. A file that is
    added or removed changes the time of its folder, so the test finds it too."""
    tests = " -o ".join(f"{shlex.quote(it)} -nt $built" for it in paths(needed(crates(), crate, [])))
    written = f"{program}.sources.{os.getpid()}"
    with open(written, "w") as file:
        file.write(f"# Written by checks/build/sources.py.\nbuilt={shlex.quote(os.path.relpath(program, ROOT))}\n")
        file.write(f"is_older() {{\n  [ {tests} ]\n}}\n")
    after = os.path.getmtime(program) + 1
    os.utime(written, (after, after))
    os.replace(written, f"{program}.sources")
