"""What the documents name: files, headings, examples, parts of programs, pictures."""
import os
import re
import subprocess
import sys

from checks.__main__ import names
from checks.build import gate
from checks.documents.pages import DOCUMENTS, crates, designs, fail, headings, page, read, shown_commands
from checks.programs import ROOT


def named_files():
    """Fails if a document names a file, or a heading of a document, that isn't there."""
    for path in [*DOCUMENTS, *(page(it) for it in crates()), *designs()]:
        here = os.path.dirname(path)
        text = read(path)
        for name, anchor in re.findall(r"\]\(([^)#:]*\.md)?#([^)]*)\)", text):
            target = os.path.normpath(os.path.join(here, name)) if name else path
            if anchor not in headings(target):
                fail(f"{path} names {target}#{anchor}, which isn't there")
        links = [os.path.join(here, it) for it in re.findall(r"\]\(([^)#:]+)(?:#[^)]*)?\)", text)]
        sources = re.findall(r"`((?:sts|laws|look|ends|tests|bench)\w*/[\w/]+\.(?:rt|antt))`", text)
        own = re.findall(r"`((?:src|specs|proofs|data)/[\w/]+(?:\.\w+)?)/?`", text) if here.startswith("crates/") else []
        for name in [*links, *(f"crates/{it}" for it in sources), *(f"{here}/{it}" for it in own)]:
            if not os.path.exists(f"{ROOT}/{name}"):
                fail(f"{path} names {name}, which isn't there")


def shown_programs(path):
    """Fails if a document shows a part of a program that is in no example."""
    texts = [read(f"examples/{it}") for it in os.listdir(f"{ROOT}/examples") if it.endswith(".sts")]
    for block in re.findall(r"```text\n(.*?)```", read(path), re.S):
        if not any(block in text for text in texts):
            fail(f"{path} shows a part of a program that no example has: {block.splitlines()[0]!r}")


def examples(path):
    """Fails if an example has no command in a document, or says of itself that it prints something else, or another text of
    `examples` is shown nowhere."""
    shown = {text: printed for mode, text, _, printed in shown_commands(path) if mode == "plain"}
    for text in (f"examples/{it}" for it in sorted(os.listdir(f"{ROOT}/examples")) if it.endswith(".sts")):
        said = re.search(r"^; Prints: ([^(,.]*\d)[^,]*, (steps \d+)\.", read(text), re.M)
        if text not in shown or not said or f"{said[1]} / {said[2]}" != shown[text]:
            fail(f"{text}: what it says that it prints isn't what a document shows")
    pages = "".join(map(read, DOCUMENTS))
    for name in (f"examples/{folder}/{it}" for folder in ("patterns", "refused") for it in sorted(os.listdir(f"{ROOT}/examples/{folder}"))):
        if f"{name})" not in pages:
            fail(f"no document names {name}")


def one_line_programs():
    """Fails where a document writes a program on one line: up to ten lines are a block, and more are a file of examples/."""
    for path in DOCUMENTS:
        found = re.search(r"`[^`\n]*\b(?:func|profile) [^`\n]* / [^`\n]*`", read(path))
        if found:
            fail(f"{path} has a program on one line: {found[0]}")


def pictures():
    """Fails if a picture isn't what its script draws."""
    if subprocess.run([sys.executable, f"{ROOT}/docs/pictures/draw.py", "--check"], stdout=subprocess.DEVNULL).returncode:
        fail("a picture isn't what docs/pictures/draw.py draws: run it")


def checks_listed():
    """Fails if checks/README.md doesn't list each check once, or says otherwise whether the gate runs it."""
    rows = re.findall(r"^\| (`\w+`(?:, `\w+`)*) \| .* \| (yes|`--fit`|) ?\|$", read("checks/README.md"), re.M)
    listed = {name: in_gate for names, in_gate in rows for name in re.findall(r"`(\w+)`", names)}
    if sorted(listed) != sorted(names()):
        fail(f"checks/README.md doesn't list each check: {sorted(set(listed) ^ set(names()))}")
    in_gate = {it.split(" ")[0] for it in (*gate.BEFORE, "named", *gate.after([]))} & {*names()} | {"vectors"}
    if {it for it, said in listed.items() if said} != in_gate:
        fail(f"checks/README.md doesn't say which checks are in the gate: {sorted({it for it, said in listed.items() if said} ^ in_gate)}")


def check(is_writing):
    named_files()
    checks_listed()
    shown_programs("README.md")
    examples("examples/README.md")
    one_line_programs()
    pictures()
