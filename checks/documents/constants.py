"""Numbers and names that stand in two places: the version, the kit, and the states of a search for ends."""
import re

from checks.documents.pages import fail, read


def versions():
    """Fails if README.md or the program `look` names another version or kit than the file VERSION."""
    text = read("VERSION")
    kit = re.search(r"^proved with rattle-kit-(\w+) logic (\w+)$", text, re.M)
    if f"the Rattle kit {kit[1]}," not in read("README.md"):
        fail("README.md doesn't name the kit of VERSION")
    said = re.search(r'const VERSION: &str = "(.*?)";', read("crates/look_args/src/command.rt"), re.S)
    if re.sub(r"\\\n *", "", said[1]).replace("\\n", "\n") + "\n" != text:
        fail("crates/look_args/src/command.rt doesn't say what VERSION says")


def states_of_searches():
    """Fails if help, docs/LOOK.md or docs/PAGE.md name another number of states for a search of ends than `look` and the page have."""
    for path, constant, shown in (
        ("crates/look_ends/src/by_calls.rt", r"MOST_STATES: u32", (("crates/look_args/src/command.rt", "stops when it has N states ({},"), ("docs/LOOK.md", "(default {},"))),
        ("crates/look_ends/src/by_calls.rt", r"STATES_TIMES_EVENTS: usize", (("docs/LOOK.md", "{} divided by"),)),
        ("page/page.js", "STATES_AT_ONCE", (("docs/PAGE.md", "with `--most {}`"),)),
        ("page/page.js", "STATES_ON_REQUEST", (("docs/PAGE.md", "with `--most {}`"),)),
    ):
        number = re.search(rf"const {constant} = ([\d_]+);", read(path))[1].replace("_", "")
        for other, words in shown:
            if words.format(number) not in read(other):
                fail(f"{other} doesn't say what {path} has: {words.format(number)}")


def check(is_writing):
    versions()
    states_of_searches()
