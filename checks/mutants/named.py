"""Tries the edits of checks/named/, the wrong bodies of the larger crates that have a name: the prover has to refuse each.

    python3 -m checks named [--wait] [--unedited] [--jobs N] [CRATE ..]

It tries them over the libraries that `rt ci` left in crates/*/out. With --wait it waits for those that an `rt ci` builds
meanwhile: the gate runs it beside `rt ci`, below the priority of all else. `rt ci` itself would prove the whole crate once more
before it tries such edits, and all callers with each of them. This check tries the edits of a crate together, as together.py
says: the prover checks the functions that were edited, and all others are cut out. An edit that isn't refused so is tried with
the whole crate, as `rt ci` does.

With --unedited it makes no edit: the prover has to prove each of these functions while the others are cut out. So no edit is
refused for what was cut out.

With no crate named, the edits of all crates are tried, N crates side by side (two, if no N is given). The last line is `N
passed, M failed`, of edits, or with --unedited of their functions.
"""
import argparse
import concurrent.futures
import os
import shutil
import sys
import tempfile
import time

from checks import kit
from checks.mutants import together
from checks.programs import ROOT

NAMED = f"{ROOT}/checks/named"
SETTLED = 5  # A library is whole so many seconds after the file of its format came.


def edits_of(crate):
    """Returns the edits of a crate."""
    names = sorted(it.removesuffix(".edit") for it in os.listdir(f"{NAMED}/{crate.name}"))
    return [together.read(NAMED, crate, it) for it in names]


def said_of_whole(crate, edit):
    """Checks the whole crate with an edit, as `rt ci` does. Returns whether the prover refuses it, and a line of the prover."""
    status, lines, _ = together.checked(crate, edit.changes, set(), [])
    goal = next((it[0] for it in together.reasons(lines) if not together.is_of_a_name(it)), None)
    is_refused = status == 1 and goal is not None and lines[-1].startswith("logic=not-proved")
    return is_refused, goal or (lines or ["nothing was said"])[-1]


def tried(crate):
    """Tries a crate's edits, prints what came of each, and returns how many were refused, and how many there are."""
    since, edits = time.time(), edits_of(crate)
    found = together.tried(crate, edits)
    for it in edits:
        if not found.get(it.name, (False, ""))[0]:
            print(f"{crate.name}/{it.name}: tried with the whole crate", flush=True)
            found[it.name] = said_of_whole(crate, it)
        is_refused, line = found[it.name]
        print(f"{crate.name}/{it.name}: {'refused' if is_refused else 'NOT REFUSED'}: {line[:160]}", flush=True)
    refused = sum(is_refused for is_refused, _ in found.values())
    print(f"{crate.name}: {len(edits)} edits, {refused} refused, in {time.time() - since:.0f} s", flush=True)
    return refused, len(edits)


def unedited(crate):
    """Checks the functions of a crate's edits with no edit, prints those that aren't proved, and returns how many are, and how many
    there are."""
    functions = set().union(*(it.functions for it in edits_of(crate)))
    unproved = together.unproved(crate, functions)
    print(f"{crate.name}: {len(functions)} functions, not proved: {', '.join(sorted(unproved)) or 'none'}", flush=True)
    return len(functions - unproved), len(functions)


def rlib_of(name):
    return f"{ROOT}/crates/{name}/out/rlib"


def has_come(name, since):
    """Returns whether the library of a crate is there, and came after a time, if there is one."""
    try:
        came = os.stat(f"{rlib_of(name)}/{name}.rlib/format").st_ctime
    except OSError:
        return False
    return since is None or since <= came < time.time() - SETTLED


def take(crate):
    """Gives a crate of the copy the libraries that it needs: `rt ci` may put others into their place when it ends."""
    for it in crate.below():
        if not os.path.isdir(os.path.dirname(it.rlib)):
            shutil.copytree(rlib_of(it.name), os.path.dirname(it.rlib), copy_function=together.link_or_copy)


def taken(crates, since, parent):
    """Yields these crates, each when the libraries that it needs have come and were taken. Ends this check if the process that
    started it ends before."""
    left = list(crates)
    while left:
        for it in [it for it in left if all(has_come(below.name, since) for below in it.below())]:
            take(it)
            left.remove(it)
            yield it
        if left and os.getppid() != parent:
            sys.exit("named: what started it has ended")
        time.sleep(1 if left else 0)


def copy_sources(to):
    """Copies what the prover reads of the repository."""
    os.makedirs(f"{to}/crates")
    for name in ("crates.txt", "HANDLES"):
        shutil.copy2(f"{ROOT}/{name}", to)
    for crate in os.listdir(f"{ROOT}/crates"):
        for part in together.PARTS:
            if os.path.isdir(f"{ROOT}/crates/{crate}/{part}"):
                shutil.copytree(f"{ROOT}/crates/{crate}/{part}", f"{to}/crates/{crate}/{part}")


def options(known):
    reads = argparse.ArgumentParser(description="Tries the edits of checks/named/: the prover has to refuse each.")
    reads.add_argument("--wait", action="store_true", help="waits for the libraries that an rt ci builds meanwhile")
    reads.add_argument("--unedited", action="store_true", help="makes no edit: the functions have to be proved")
    reads.add_argument("--jobs", type=int, default=2, help="how many crates side by side")
    reads.add_argument("crates", nargs="*", metavar="CRATE", help="the crates that have their edits tried (all)")
    words = reads.parse_args()
    unknown = [it for it in words.crates if it not in known]
    if unknown:
        reads.error(f"checks/named/ has no folder {unknown[0]}")
    return words, words.crates or known


def main():
    parent, since = os.getppid(), time.time()
    words, names = options(sorted(os.listdir(NAMED)))
    with tempfile.TemporaryDirectory(prefix="sts-named-copy-") as room, concurrent.futures.ThreadPoolExecutor(words.jobs) as pool:
        copy_sources(f"{room}/repo")
        known = {}
        crates = [kit.crate(f"{room}/repo", it, known) for it in names]
        unbuilt = sorted({it.name for crate in crates for it in crate.below() if not has_come(it.name, None)})
        if unbuilt and not words.wait:
            print(f"named: these crates aren't built, as `rt ci` builds them: {', '.join(unbuilt)}", file=sys.stderr)
            return 2
        try:
            results = [pool.submit(unedited if words.unedited else tried, it) for it in taken(crates, since if words.wait else None, parent)]
            passed, of = (sum(it) for it in zip(*(it.result() for it in results)))
        except together.Unfit as why:
            print(f"named: {why}", file=sys.stderr)
            return 2
    print(f"{passed} passed, {of - passed} failed")
    return passed < of
