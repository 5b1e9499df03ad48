"""What the documents show and count of the Java programs, of the JDK, and of its differences."""
import os
import re
import sys

from checks.documents.pages import DOCUMENTS, fail, is_part, read
from checks.models.stack_code import OPERANDS
from checks.programs import ROOT

LOCAL = {"push", "pop", "dup", "swap", "load", "store", "add", "sub", "mul", "lt", "eq", "div", "jmp", "jz", "times", "next", "forget"}
NUMBERS = ["no", "one", "two", "three", "four", "five", "six", "seven", "eight", "nine", "ten", "eleven", "twelve", "thirteen", "fourteen"]


def java_programs():
    """Fails if a document shows lines of a Java program that its file doesn't have, or shows none of a file's."""
    shown = set()
    for path in DOCUMENTS:
        for name, block in re.findall(r"In Java \(\[`\w+\.java`\]\(\.\./(jdk/\w+/\w+\.java)\)\):\n\n```java\n(.*?)```\n", read(path), re.S):
            shown.add(name)
            if not is_part(block, read(name)):
                fail(f"{path} shows lines that {name} doesn't have, or too many: {block.splitlines()[0]!r}")
    names = {f"jdk/differences/{it}" for it in os.listdir(f"{ROOT}/jdk/differences")}
    beside = {f"{it[:-4]}.java" for it in os.listdir(f"{ROOT}/examples") if it.endswith(".sts")}
    names |= {f"jdk/examples/{it}" for it in os.listdir(f"{ROOT}/jdk/examples") if it not in beside}
    if names != shown:
        fail(f"Java programs that are shown in no document, or aren't there: {sorted(names ^ shown)}")


def table(page, first):
    """Returns the rows of the table of a page whose first heading this is: a name and its numbers."""
    rows = re.search(rf"^\| {first} \|.*\n\|[-|]*\n((?:\|.*\n)*)", page, re.M)[1]
    return [(cell[1], [int(it.replace(",", "")) for it in re.findall(r"\| ([\d,]+) (?=\|)", cell[2])]) for cell in re.finditer(r"^\| (.*?) ((?:\| [\d,]+ )+\|)$", rows, re.M)]


def jdk_figures():
    """Fails if jdk/README.md hasn't the figures of a whole run: each rule and each known difference of jdk/check.py came, the
    sums agree, and each Java program ran. The number of differences in README.md is that of the headings of docs/JDK.md."""
    sys.path.insert(0, f"{ROOT}/jdk")
    import known
    from page import BEGIN, END, RULES
    shown = read("jdk/README.md").split(BEGIN)[1].split(END)[0]
    kinds, rules, differences = (table(shown, it) for it in ("Cases", "Rule", "Known difference"))
    if [it for it, _ in rules] != [rule for rule, _ in RULES] or [it for it, _ in differences] != list(known.DIFFERENCES):
        fail("jdk/README.md has other rules or differences than jdk/check.py: jdk/check.py --write")
    if not all(numbers[0] > 0 for _, numbers in rules + differences):
        fail("jdk/README.md has a rule or a difference that no case met")
    played = sum(numbers[0] for _, numbers in kinds)
    if f": {played:,} cases of " not in shown or any(numbers[0] != sum(numbers[1:]) for _, numbers in kinds) or played < 10_000:
        fail("the figures of jdk/README.md don't add up to 10,000 cases")
    programs_there = sum(len([it for it in os.listdir(f"{ROOT}/jdk/{folder}") if it.endswith(".java")]) for folder in ("examples", "differences"))
    if f"- {programs_there} Java programs ran." not in shown:
        fail(f"jdk/README.md doesn't say that {programs_there} Java programs ran: jdk/check.py --write")
    headings_there = len(re.findall(r"^### ", read("docs/JDK.md").split("\n## What differs\n")[1].split("\n## ")[0], re.M))
    if f"[{NUMBERS[headings_there]} differences](docs/JDK.md#what-differs)" not in read("README.md"):
        fail(f"README.md doesn't name the {NUMBERS[headings_there]} differences of docs/JDK.md")


def jdk_instructions():
    """Fails if the table of the API in docs/JDK.md lacks an instruction on scopes, subtasks, keys or flags, or has a word that
    is none. The other instructions have no call of the API."""
    table = re.search(r"^\| In Java \|.*?\n\n", read("docs/JDK.md"), re.M | re.S)[0]
    words = {it.split(" ")[0] for line in table.splitlines()[2:] for it in re.findall(r"`([^`]+)`", line.strip("|").split("|")[-1])}
    joiners, events = {"all", "any", "awaitok", "awaitall", "until"}, {"expire", "interrupt"}
    if words - joiners - events - {"push"} != set(OPERANDS) - LOCAL:
        fail(f"docs/JDK.md doesn't have each instruction in its table of the API: {sorted((words - joiners - events - {'push'}) ^ (set(OPERANDS) - LOCAL))}")


def check(is_writing):
    java_programs()
    jdk_figures()
    jdk_instructions()
