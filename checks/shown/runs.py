"""The commands with workers that the documents show.

README.md: `run` of `sum` by 1 to 16 workers prints what `verify` prints, and then the end and the steps that README.md shows.
`replay` of the journal prints these two again. examples/README.md: `deadline` with its outside events ends with
`success 0`, with a journal and without, and with `success 42` if nothing comes from outside. LANGUAGE.md: what its first
text prints. PATTERNS.md: each program reaches an end that is shown, `plain` and `replay` print what is shown for each trace,
and files from other editors are judged as shown. The lines for a shell that PATTERNS.md, LANGUAGE.md and VERIFIER.md show do
what the text says.
"""
import os
import re
import subprocess
import tempfile

from checks import notation
from checks.documents.pages import programs, read
from checks.programs import ROOT, answer, kept


SUM, DEADLINE, DUE = (os.path.join(ROOT, "examples", name) for name in ("sum.sts", "deadline.sts", "deadline.outside"))
END = "success 50\nsteps 24\n"
WORKERS = ("1", "2", "4", "16")
PATTERNS = "docs/PATTERNS.md"
SEVEN, TWO_STEPS, DUE_ONCE = b"func main 0\npush 7\nret\nend\n", b"step 0\nstep 0\n", b"at 1 interrupt 0\n"
SECONDS = 120
MARK = b"\xef\xbb\xbf"
# What a table of PATTERNS.md describes in words: the bytes of a program, a trace or none, an outside text or none.
FILES = {
    "a program that begins with a byte order mark": (MARK + SEVEN, TWO_STEPS, None),
    "a program whose lines end in CR and LF": (SEVEN.replace(b"\n", b"\r\n"), TWO_STEPS, None),
    "a trace whose lines end in CR and LF": (SEVEN, TWO_STEPS.replace(b"\n", b"\r\n"), None),
    "a trace that begins with a byte order mark": (SEVEN, MARK + TWO_STEPS, None),
    "a trace whose last line lacks its newline": (SEVEN, TWO_STEPS[:-1], None),
    "an outside text whose lines end in CR and LF": (SEVEN, None, DUE_ONCE.replace(b"\n", b"\r\n")),
}


def says(program, *words):
    """Returns the output, or nothing if the program doesn't end."""
    return answer(program, *words, seconds=SECONDS).printed


def by_workers(program, folder, name, file, ends):
    """Yields for each number of workers whether a program reaches one of these ends, and its journal the same one."""
    journal, budgets = os.path.join(folder, "journal"), says(program, "verify", file)
    for workers in WORKERS:
        said = says(program, "run", file, "--workers", workers, "--trace", journal)
        end = said[len(budgets):].split("\n")[0]
        yield f"{name} by {workers}", said.startswith(budgets) and end in ends
        yield f"the journal of {name} by {workers}", budgets + says(program, "replay", file, journal) == said


def patterns(program, folder):
    """Yields what the tables of PATTERNS.md show of its programs."""
    for number, (name, text, shown, _) in enumerate(programs(PATTERNS)):
        file = kept(folder, f"pattern{number}", text.encode())
        for asked, printed in shown:
            lines = re.findall(r"`([^`]*)`", printed)
            if asked.startswith("by workers"):
                yield from by_workers(program, folder, name, file, lines)
                continue
            steps = kept(folder, "trace", notation.events(asked.strip("`")))
            for mode in ("plain", "replay"):
                yield f"{mode} {name}, {asked}", says(program, mode, file, steps) == "".join(f"{it}\n" for it in lines)


def files(program, folder):
    """Yields what PATTERNS.md shows of files from other editors."""
    table = re.findall(r"^\| (an? [^|`]*) \| (`[^|]*) \|", read(PATTERNS), re.M)
    yield "the files from other editors are those that are known", [name for name, _ in table] == list(FILES)
    for name, printed in table:
        text, steps, outside = FILES.get(name, (b"", b"", None))
        file = kept(folder, "text", text)
        words = ("plain", file, kept(folder, "trace", steps or b""))
        if outside is not None:
            words = ("run", file, "--workers", "1", "--outside", kept(folder, "outside", outside))
        yield name, says(program, *words) == "".join(f"{it}\n" for it in re.findall(r"`([^`]*)`", printed))


def first_text(program, folder):
    """Yields whether the first text of LANGUAGE.md prints what is shown of it."""
    page = read("docs/LANGUAGE.md")
    file = kept(folder, "first", programs("docs/LANGUAGE.md")[0][1].encode())
    shown = re.search(r"`./sts run examples/sum.sts --workers (\d+)` prints its budgets, `(.*?)` and `(.*?)`", page)
    said = says(program, "run", file, "--workers", shown[1])
    yield "the first text", said == f"{says(program, 'verify', file)}{shown[2]}\n{shown[3]}\n"


def by_shell(program, folder, lines, text):
    """Returns what a shell prints for these lines. There `./sts` is the program, and `my.sts` has this text."""
    kept(folder, "my.sts", text.encode())
    for name, path in ("sts", program), ("checks", f"{ROOT}/checks"), ("examples", f"{ROOT}/examples"):
        if not os.path.lexists(f"{folder}/{name}"):
            os.symlink(os.path.realpath(path), f"{folder}/{name}")
    done = subprocess.run(["bash", "-c", lines], cwd=folder, capture_output=True, text=True, timeout=SECONDS)
    return done.stdout + done.stderr


def numbered(listing):
    """Returns a listing with the number of its place before each instruction."""
    place, lines = 0, []
    for line in listing.splitlines(True):
        lines.append(f"{place:4}{line}" if line.startswith("  ") else line)
        place = place + 1 if line.startswith("  ") else 0 if line.startswith("func") else place
    return "".join(lines)


def shell_lines(program, folder):
    """Yields whether the lines for a shell that the documents show do what is said of them."""
    by_two, traced = re.findall(r"^```text\n(.*?)```", read(PATTERNS), re.M | re.S)[:2]
    name, hedge, shown, _ = programs(PATTERNS)[0]
    printed = {asked: re.findall(r"`([^`]*)`", lines) for asked, lines in shown}
    said, budgets = by_shell(program, folder, by_two, hedge), says(program, "verify", f"{folder}/my.sts")
    end = said.removeprefix(budgets).split("\n")[0]
    yield f"{PATTERNS}: {by_two}", said.startswith(budgets) and end in printed["by workers"]
    asked = f"`{traced.split(chr(39))[1]}`"
    yield f"{PATTERNS}: {traced}", by_shell(program, folder, traced, hedge).split("\n")[:-1] == printed.get(asked)
    rounds = re.search(r"^```text\n(for .*\n)```", read("docs/LANGUAGE.md"), re.M)[1]
    text = read("examples/sum.sts")
    yield f"LANGUAGE.md: {rounds}", by_shell(program, folder, f"{rounds}./sts plain my.sts my.trace", text) == END
    places = re.search(r"^    (\./sts list .*\n)", read("docs/VERIFIER.md"), re.M)[1]
    for text in (hedge, text, read("examples/scoped_values.sts")):
        right = by_shell(program, folder, places, text) == numbered(says(program, "list", f"{folder}/my.sts"))
        yield f"VERIFIER.md: {places}", right


def tried(program, folder):
    """Yields for each run what it is and whether it prints what it should."""
    yield from first_text(program, folder)
    yield from patterns(program, folder)
    yield from files(program, folder)
    yield from shell_lines(program, folder)
    journal = os.path.join(folder, "journal")
    budgets, due = says(program, "verify", SUM), says(program, "verify", DEADLINE)
    for workers in WORKERS:
        yield f"sum by {workers}", says(program, "run", SUM, "--workers", workers, "--trace", journal) == budgets + END
        yield f"the journal of sum by {workers}", says(program, "replay", SUM, journal) == END
        said = says(program, "run", DEADLINE, "--workers", workers, "--outside", DUE, "--trace", journal)
        yield f"deadline by {workers}", said.startswith(f"{due}success 0\nsteps ")
        yield f"the journal of deadline by {workers}", due + says(program, "replay", DEADLINE, journal) == said
        said = says(program, "run", DEADLINE, "--workers", workers, "--outside", DUE)
        yield f"deadline by {workers}, no journal", said.startswith(f"{due}success 0\nsteps ")
        said = says(program, "run", DEADLINE, "--workers", workers)
        yield f"deadline by {workers}, nothing from outside", said.startswith(f"{due}success 42\nsteps ")


def shown(sts, look):
    """Yields what is compared, and whether it is as it is shown."""
    with tempfile.TemporaryDirectory() as folder:
        yield from tried(sts, folder)
