"""Tries the edits of checks/edits/, which the gate leaves out: the prover has to refuse each.

    python3 -m checks edits [--jobs N] [--alone] [CRATE ..]

An edit makes a body of a function wrong; its first line says how. Those that the gate tries are in the crates' own folders
`must-fail/` and in checks/named/. The others are in checks/edits/CRATE/.

With no crate named, the edits of all crates are tried, N crates side by side (as many as there are processors, if no N is
given). The script works on a copy of the repository. It takes along the libraries that were built in crates/*/out, if they
are of the present sources, and builds the others.

The edits of a crate are first tried together, as together.py says: the prover checks the functions that were edited, and all
others are cut out. With --alone, and for each edit of whose function the prover said nothing, `rt must-fail CRATE` tries the
edits one by one.

A line follows for each crate. It counts the edits that were refused since a goal stays open, and those refused for a name
alone: there a proof file names what the edit took away, and nothing was shown of the contract. Such an edit counts as
failed. The last line is `N passed, M failed`, of edits.
"""
import argparse
import concurrent.futures
import contextlib
import io
import os
import re
import shutil
import subprocess
import sys
import tempfile
import time

from checks.build import build
from checks import kit
from checks.mutants import together
from checks.programs import ROOT

EDITS = f"{ROOT}/checks/edits"
TRIED = re.compile(r"^(?:rt: )?must-fail (\w+)/([\w.-]+)\.edit: (refused|BAD EDIT|NOT REFUSED|NOT TRIED).*", re.M)
BY_NAME = "only because a proof file names"


def copy(to):
    """Copies the files of the repository, as they are now, that git knows, and the libraries that were built."""
    listed = subprocess.run(["git", "ls-files", "-z"], cwd=ROOT, capture_output=True, check=True).stdout
    for name in filter(None, listed.decode().split("\0")):
        if os.path.isfile(f"{ROOT}/{name}"):
            os.makedirs(os.path.dirname(f"{to}/{name}"), exist_ok=True)
            shutil.copy2(f"{ROOT}/{name}", f"{to}/{name}")
    for crate in os.listdir(f"{ROOT}/crates"):
        if os.path.isdir(f"{ROOT}/crates/{crate}/out/rlib"):
            rlib = f"crates/{crate}/out/rlib"
            shutil.copytree(f"{ROOT}/{rlib}", f"{to}/{rlib}", copy_function=together.link_or_copy)


def put(crate, names, to):
    """Puts these edits of a crate in the place of those that the gate tries."""
    folder = f"{to}/crates/{crate}/must-fail"
    shutil.rmtree(folder, ignore_errors=True)
    os.makedirs(folder)
    for name in names:
        shutil.copy2(f"{EDITS}/{crate}/{name}.edit", folder)


def names_of(crate):
    """Returns the names of a crate's edits."""
    return sorted(it.removesuffix(".edit") for it in os.listdir(f"{EDITS}/{crate}"))


def fitting(crate):
    """Returns the edits of a crate that can be tried together: each changes texts in functions whose names are known."""
    found = []
    for it in names_of(crate.name):
        with contextlib.suppress(together.Unfit):
            found.append(together.read(EDITS, crate, it))
    return found


def one_by_one(crate, names, to):
    """Tries edits of a crate by `rt must-fail`, prints the prover's line on each, and returns what came of each."""
    put(crate, names, to)
    how = {"cwd": to, "stdin": subprocess.DEVNULL, "stdout": subprocess.PIPE, "stderr": subprocess.STDOUT}
    said = subprocess.run(["rt", "must-fail", crate], text=True, errors="replace", **how).stdout
    lines = [match[0] for match in TRIED.finditer(said)] or said.splitlines()[-5:]
    print("\n".join(lines), flush=True)
    return {it[2]: "by a name" if BY_NAME in it[0] else it[3] for it in TRIED.finditer(said)}


def tried(crate, to, is_alone):
    """Tries a crate's edits, and returns the result of each and the seconds."""
    since, found = time.time(), {}
    if not is_alone:
        for name, (is_refused, line) in together.tried(crate, fitting(crate)).items():
            found[name] = "refused" if is_refused else "by a name"
            print(f"{crate.name}/{name}: {found[name]}: {line[:160]}", flush=True)
    left = [it for it in names_of(crate.name) if it not in found]
    if left:
        found.update(one_by_one(crate.name, left, to))
    return found, time.time() - since


def build_below(crates, jobs):
    """Builds the libraries that these crates need, and returns whether all were built."""
    needed = {below.name: below for it in crates for below in it.below()}
    with contextlib.redirect_stdout(io.StringIO()):
        return build.prove_all(sorted(needed.values(), key=lambda it: len(it.below())), jobs)


def options(known):
    reads = argparse.ArgumentParser(description="Tries the edits of checks/edits/: the prover has to refuse each.")
    reads.add_argument("--jobs", type=int, default=len(os.sched_getaffinity(0)), help="how many crates side by side")
    reads.add_argument("--alone", action="store_true", help="tries each edit by itself")
    reads.add_argument("crates", nargs="*", metavar="CRATE", help="the crates that have their edits tried (all)")
    words = reads.parse_args()
    unknown = [it for it in words.crates if it not in known]
    if unknown:
        reads.error(f"checks/edits/ has no folder {unknown[0]}")
    # (those with the most edits first, so that none of them is left at the end, alone)
    return words, sorted(words.crates or known, key=lambda it: -len(names_of(it)))


def main():
    words, names = options(sorted(os.listdir(EDITS)))
    with tempfile.TemporaryDirectory(prefix="sts-edits-") as to, concurrent.futures.ThreadPoolExecutor(words.jobs) as pool:
        copy(to)
        known = {}
        os.chdir(to)
        crates = [kit.crate(to, it, known) for it in names]
        if not build_below(crates, words.jobs):
            sys.exit("edits.py: a library that the crates need isn't proved")
        results = list(pool.map(lambda it: tried(it, to, words.alone), crates))
    passed = failed = 0
    for name, (found, seconds) in zip(names, results):
        came = [found.get(it, "nothing was said of this edit") for it in names_of(name)]
        for edit, it in zip(names_of(name), came):
            if it != "refused":
                print(f"{name}/{edit}: {it}")
        refused, by_name = came.count("refused"), came.count("by a name")
        print(f"{name}: {len(came)} edits, {refused} refused, {by_name} for a name alone, in {seconds:.0f} s")
        passed, failed = passed + refused, failed + len(came) - refused
    print(f"{passed} passed, {failed} failed")
    return failed > 0
