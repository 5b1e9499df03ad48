"""What docs/LOOK.md shows: what `view` and `explain` print for a beginning of a trace, what `explain` prints for a text or an
example, the title of a window that `draw` shows, and the story that `tell` prints."""
import os
import re
import tempfile
from xml.etree import ElementTree

from checks.documents import relied
from checks.documents.pages import dedented, read
from checks.programs import ROOT, says
from checks.tests.places import beginnings

SHOWN = re.compile(r"After the first (\d+) events of \[(\w+)\]\S*?(?:, `(--\w+)` .*?)?:\n\n((?:    .*\n)+)")
TOLD = re.compile(r"This is printed after the first (\d+) events of \[(\w+)\].*?:\n\n((?:    .*\n)+)")
TITLED = re.compile(r"For the (\d+) events of \[(\w+)\]\S*, `--events (\S+)` gives this title:\n\n((?:    .*\n)+)")
EXPLAINED = re.compile(r"\n\n((?:    .*\n)+)\n`explain` prints:\n\n((?:    .*\n)+)")
EXAMPLE = re.compile(r"`\./look explain (examples/\S+)` prints:\n\n((?:    .*\n)+)")
STORY = re.compile(r"This is the trace of \[(\w+)\]\S*:\n\n((?:    .*\n)+)(?:.*\n)+?.*comes a line for each task:\n\n((?:    .*\n)+)")
SVG = "{http://www.w3.org/2000/svg}"


def of_runs(look, folder):
    """Yields whether what LOOK.md shows is printed."""
    for command, pattern in (("view", SHOWN), ("explain", TOLD)):
        page = pattern.findall(read("docs/LOOK.md"))
        yield f"LOOK.md shows something of {command}", page != []
        yield from shown_of(look, folder, command, page)


def shown_of(look, folder, command, page):
    for count, name, *options, block in page:
        text = os.path.join(ROOT, "examples", f"{name}.sts")
        with open(os.path.join(ROOT, "examples", f"{name}.trace")) as file:
            *_, path = beginnings(folder, file.readlines()[:int(count)])
        yield f"{command} of {name} in LOOK.md", says(look, command, text, path, *filter(None, options))[1] == dedented(block)


def titled(look):
    """Yields whether LOOK.md shows the title of a window."""
    page = TITLED.findall(read("docs/LOOK.md"))
    yield "LOOK.md shows a title", page != []
    for count, name, window, block in page:
        text = f"examples/{name}.sts"
        with open(os.path.join(ROOT, text[:-4] + ".trace")) as file:
            yield f"the events of {name}", len(file.readlines()) == int(count)
        drawn_now = says(look, "draw", text, text[:-4] + ".trace", "--events", window, cwd=ROOT)[1]
        yield f"the title of {name} in LOOK.md", ElementTree.fromstring(drawn_now).find(SVG + "title").text == dedented(block)


def explained(look, folder):
    """Yields whether what LOOK.md shows of texts is what is explained of them."""
    page = EXPLAINED.findall(read("docs/LOOK.md"))
    yield "LOOK.md shows an explanation", page != []
    path = os.path.join(folder, "text")
    texts = [(dedented(text), dedented(block)) for text, block in page]
    for text, printed in [*texts, (relied.TEXT, relied.PRINTED)]:
        with open(path, "w") as file:
            file.write(text)
        yield "an explanation in LOOK.md", says(look, "explain", path)[1] == printed
    of_examples = EXAMPLE.findall(read("docs/LOOK.md"))
    yield "LOOK.md shows the explanation of an example", of_examples != []
    for name, block in of_examples:
        yield f"{name} in LOOK.md", says(look, "explain", os.path.join(ROOT, name))[1] == dedented(block)


def stories(look):
    """Yields whether LOOK.md shows a story."""
    page = STORY.findall(read("docs/LOOK.md"))
    yield "LOOK.md shows a story", page != []
    for name, block, ends in page:
        files = [os.path.join(ROOT, "examples", f"{name}.{it}") for it in ("sts", "trace")]
        yield f"the story of {name} in LOOK.md", says(look, "tell", *files)[1] == dedented(block)
        yield f"the ends of {name} in LOOK.md", says(look, "tell", *files, "--strict")[1] == dedented(block + ends)


def shown(sts, look):
    """Yields what is compared, and whether it is as it is shown."""
    with tempfile.TemporaryDirectory() as folder:
        yield from of_runs(look, folder)
        yield from explained(look, folder)
        yield from titled(look)
        yield from stories(look)
