"""What the pages say of the crates: floors, neighbours, edits, decisions, and whose proofs one uses."""
import os
import re
import subprocess

from checks.documents.pages import crates, fail, page, read
from checks.programs import ROOT


def floor_rows():
    """Returns the name of each floor in crates/README.md, with its crates."""
    rows = re.findall(r"^\| (\w.*?) \| \[`(\w+)`\]\((\w+)/README\.md\) \| ", read("crates/README.md"), re.M)
    for _, name, folder in rows:
        if name != folder:
            fail(f"crates/README.md links from {name} to {folder}")
    return [(floor, [name for other, name, _ in rows if other == floor]) for floor in dict.fromkeys(it for it, _, _ in rows)]


def floors():
    """Fails if crates/README.md doesn't have each crate once, or a crate uses one of a higher floor."""
    rows = [row for _, row in floor_rows()]
    floor = {it: number for number, row in enumerate(rows) for it in row}
    if sorted(it for row in rows for it in row) != sorted(crates()):
        fail(f"crates/README.md doesn't have each crate once: {sorted(set(floor) ^ set(crates()))}")
    for name, others in crates().items():
        for it in others:
            if floor[it] > floor[name]:
                fail(f"{name} uses {it}, which is of a higher floor")


def neighbours(is_writing):
    """Fails if crates/README.md doesn't say next to each crate which crates it uses. Or writes this."""
    table = read("crates/README.md")

    def with_uses(row):
        uses = " ".join(crates()[row[2]])
        return f"{row[1]} | {f'`{uses}`' if uses else 'none'} |"

    written = re.sub(r"^(\| \w[^|]*? \| \[`(\w+)`\]\(\w+/README\.md\) \| [^|]*?)(?: \| [^|]*)? \|$", with_uses, table, flags=re.M)
    if is_writing:
        with open(f"{ROOT}/crates/README.md", "w") as file:
            file.write(written)
    elif written != table:
        fail("crates/README.md doesn't say what each crate uses: python3 -m checks documents write")


def edits():
    """Fails if an edit doesn't say in its first line what it makes wrong."""
    folders = [f"crates/{it}/must-fail" for it in crates()]
    folders += [f"{of}/{it}" for of in ("checks/named", "checks/edits") for it in os.listdir(f"{ROOT}/{of}")]
    for path in (f"{it}/{name}" for it in folders if os.path.isdir(f"{ROOT}/{it}") for name in os.listdir(f"{ROOT}/{it}")):
        if path.endswith(".edit") and not read(path).startswith("# "):
            fail(f"{path} doesn't say what it makes wrong")


def proofs_of_others():
    """Fails if a crate uses proofs of another crate of the repository from a file that isn't called `*Lemmas`."""
    names = "|".join(os.listdir(f"{ROOT}/crates"))
    used = re.compile(rf"\b({names})(?:\.|::)proofs(?:\.|::)(\w+)")
    listed = subprocess.check_output(["git", "ls-files", "-co", "--exclude-standard", "crates"], cwd=ROOT, text=True)
    for path in (it for it in listed.split() if it.endswith((".rt", ".antt")) and os.path.exists(f"{ROOT}/{it}")):
        for crate, name in used.findall(read(path)):
            if crate != path.split("/")[1] and not name.endswith("Lemmas"):
                fail(f"{path} uses {name} of {crate}, which isn't called `*Lemmas`")


def decisions():
    """Fails if a page doesn't link to the decisions of its crate that lie next to it, or links to none."""
    for name in crates():
        has_design = os.path.exists(f"{ROOT}/crates/{name}/DESIGN.md")
        if has_design != ("(DESIGN.md" in read(page(name))):
            fail(f"{page(name)} doesn't link to its DESIGN.md, or there is none")


def check(is_writing):
    floors()
    neighbours(is_writing)
    edits()
    proofs_of_others()
    decisions()
