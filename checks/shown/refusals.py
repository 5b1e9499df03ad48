"""What `look explain` prints of the refused texts of docs/VERIFIER.md and docs/PATTERNS.md, below each text.

docs/VERIFIER.md also shows what the plain machine does (tests/each_cause.py worked it out). The sentences of other mistakes are in
checks/look_rows/verdicts.rows, which `look_rows` compares.
"""
import re
import tempfile

from checks.documents.causes import PAGES, pairs
from checks.documents.pages import STATUS, read
from checks.programs import ROOT, kept
from checks.tests.each_cause import RUNS, VERIFIER, says


def below(code):
    """Returns what VERIFIER.md shows for a cause below what `explain` printed: its run."""
    short, ends = RUNS[code]
    return f"\nAfter `{short}` the plain machine prints `{ends.split(' / ')[0]}`.\n"


def renewed(look, folder, path):
    """Returns a page with what is printed of its refused texts, and what is compared of these."""
    page, right, seen, moved = read(path), [], set(), 0
    for pair in list(pairs(path)):
        status, printed = says(look, "explain", kept(folder, "text", pair.refused))
        right += [
            (f"explain what {path} mends under {pair.heading}", status == STATUS["refused"]),
            (f"explain the accepted text, {pair.heading}", says(look, "explain", kept(folder, "text", pair.accepted))[1].startswith("accepted\n")),
        ]
        code, shown = pair.heading.split(" ")[0], "\n" + re.sub("^(?=.)", "    ", printed, flags=re.M)
        if path == VERIFIER and code not in seen:
            seen.add(code)
            shown += below(code)
        at = pair.after + moved
        old = re.match(r"(?:\n(?:    .*\n)+)?(?:\nAfter `[^`]*` the plain machine .*\n)?", page[at:])[0]
        page, moved = page[:at] + shown + page[at + len(old):], moved + len(shown) - len(old)
    return page, right


def pages_of(look, folder):
    """Returns the pages by their paths as they should be, and what was compared for them."""
    pages = {path: renewed(look, folder, path) for path in PAGES}
    return {path: page for path, (page, _) in pages.items()}, [it for _, answers in pages.values() for it in answers]


def shown(sts, look, is_writing=False):
    """Yields what is compared of these texts, and whether the pages show what is printed now. Or writes the pages."""
    with tempfile.TemporaryDirectory() as folder:
        pages, right = pages_of(look, folder)
    yield from right
    for path, page in pages.items():
        if is_writing:
            with open(f"{ROOT}/{path}", "w") as file:
                file.write(page)
        yield f"{path} shows what is printed", page == read(path)
