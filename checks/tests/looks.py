"""Runs the built program `look` over the examples.  [LOOK [STS]|--unproved] [PART]

- `explain` of each example says that it is accepted, and where it relies on a rule that JDK 25 doesn't share;
- `view` of each beginning of each example's trace begins with what `plain` of `sts` prints, with its status, and names the
  line of the text at each place;
- `explain` of each of these says the state of the run, with that status. For each task that lives in `view`, and for no
  other, it says the line of its place, and which living subtasks it waits for;
- `view --each` of the whole trace is `view` of each beginning in turn, after a line `after N EVENT` for each event,
  with `--full` and without;
- `view --living` is `view` without the tasks that have ended or never started and without the scopes that are closed, and
  says how many these are, also with `--full` and `--each`;
- `tell --each` of each example has a line for each event, and says of those that are idle in `view --each`, and of no other,
  that they are. Without `--each` it has some of these lines. With `--strict` its status is 5 if an event is idle;
- `draw` of each example is well formed, and has the same bytes a second time. It has the status and the heading of
  `plain`, a lane for each task, and a column for each event that `view --each` shows;
- `draw --events` of the first half of an example's events is `draw` of these events, but says which others there are. Of
  the other half it has the columns that the whole picture has;
- the stored pictures are what `draw` prints;
- `view`, `explain`, `tell` and `draw` of a run of 65,536 tasks are right, and so is `explain` of the largest text that is accepted and
  of one with 64 functions that is refused for its budget (`large_of_look`).
With a PART, which is `large_of_look`, only that is tried. The last line is `N passed, M failed`, of comparisons.
"""
import glob
import os
import re
import sys
import tempfile
from xml.etree import ElementTree

from checks import programs, tally
from checks.documents import relied
from checks.documents.pages import dedented, read
from checks.programs import ROOT, says
from checks.tests.edges import WIDE
from checks.tests.places import beginnings, place_words, with_lines, without_lines

sys.path.insert(0, os.path.join(ROOT, "docs", "pictures"))
import drawn  # noqa: E402

LIVING = re.compile(r"task (\d+) under (\S+) in (\S+) at (\d+), (?:line \d+|its end) (ready|waits (?:join|close) (\d+))(?: interrupted)?")
CLOSED = re.compile(r"scope .* closed(?: timed)?(?: cancelled)?(?: expired)?")
SVG = "{http://www.w3.org/2000/svg}"


def parts(printed):
    """Returns the parts that `--each` prints, with the lines that head all but the first."""
    pieces = re.split(r"^(after \d+ .*\n)", printed, flags=re.M)
    return [pieces[0]] + pieces[2::2], pieces[1::2]


def by_lines(source, viewed):
    """Returns what `explain` has to print of a run without a fault, from the text and what `view` prints of it."""
    first, *rest = viewed.split("\n")
    living = [found.groups() for found in map(LIVING.fullmatch, rest) if found]
    told = [first]
    for task, _, name, pc, stand, scope in living:
        waits = "".join(f" {other}" for other, under, *_ in living if under == scope)
        stands = f"waits at {stand.split(' ')[1]} of scope {scope} for{waits}" if scope else stand
        told.append(f"task {task} in {place_words(source, name, int(pc))} ({stands})")
    return "".join(f"{line}\n" for line in told)


def only_living(viewed):
    """Returns what `view --living` has to print, from what `view` prints."""
    kept, others, is_kept = [], {"task": 0, "scope": 0}, True
    for line in viewed.split("\n")[:-1]:
        kind = line.split(" ")[0]
        if kind in others:
            is_kept = bool(LIVING.fullmatch(line) if kind == "task" else not CLOSED.fullmatch(line))
            others[kind] += not is_kept
        kept += [line] if is_kept else []
    tasks = "1 task that doesn't live" if others["task"] == 1 else f"{others['task']} tasks that don't live"
    scopes = "1 closed scope" if others["scope"] == 1 else f"{others['scope']} closed scopes"
    return "".join(f"{line}\n" for line in [*kept, f"not shown: {tasks}, {scopes}"])


def example(look, sts, folder, text):
    """Yields each comparison of an example, and whether it holds."""
    name, trace = os.path.basename(text), text[:-4] + ".trace"
    with open(text) as file, open(trace) as steps:
        source, events = file.read(), steps.readlines()
    for words in ([], ["--full"]):
        each, heads = parts(says(look, "view", text, trace, "--each", *words)[1])
        right = [f"after {n} {event.rstrip()}" for n, event in enumerate(events, 1)]
        yield f"heads of {name}", [it.rstrip().removesuffix(" idle") for it in heads] == right
        living = says(look, "view", text, trace, "--each", "--living", *words)[1]
        yield f"living tasks and open scopes of {name}", parts(living) == (list(map(only_living, each)), heads)
        for count, path in enumerate(beginnings(folder, events)):
            status, printed = says(look, "view", text, path, *words)
            ended, plain = says(sts, "plain", text, path)
            yield f"{name} after {count}", status == ended and printed.startswith(plain)
            yield f"{name} after {count}, each", each[count:count + 1] == [printed]
            yield f"{name} after {count}, its lines", printed == with_lines(source, without_lines(printed))
            yield f"{name} after {count}, living", says(look, "view", text, path, "--living", *words) == (status, only_living(printed))
            if not words:
                yield f"{name} after {count}, by lines", says(look, "explain", text, path) == (status, by_lines(source, printed))


def story(look, text):
    """Yields whether the stories of an example have a line for each event, and name those that are idle."""
    name, trace = os.path.basename(text), text[:-4] + ".trace"
    status, printed = says(look, "tell", text, trace, "--each")
    told = [line.split(" ", 1) for line in printed.splitlines()]
    heads = parts(says(look, "view", text, trace, "--each")[1])[1]
    idle = [str(number) for number, head in enumerate(heads, 1) if head.endswith(" idle\n")]
    yield f"each event of {name} told", list(dict.fromkeys(number for number, _ in told)) == [*map(str, range(1, len(heads) + 1))]
    yield f"idle events of {name} told", [number for number, words in told if words.startswith("idle")] == idle
    yield f"the status of {name} told", status == says(look, "view", text, trace)[0]
    brief = says(look, "tell", text, trace)
    left = iter(printed.splitlines())
    yield f"{name} told in brief", brief[0] == status and all(line in left for line in brief[1].splitlines())
    strict, lines = says(look, "tell", text, trace, "--strict")
    yield f"{name} told strictly", strict == (5 if idle else status) and bool(idle or lines.startswith(brief[1]))


def of_class(picture, name):
    """Returns the elements of a class outside the legend."""
    return [it for it in picture if it.get("class", "").split()[:1] == [name]]


def drawing(look, sts, folder, text):
    """Yields each comparison of an example's picture, and whether it holds."""
    name, trace = os.path.basename(text), text[:-4] + ".trace"
    status, printed = says(look, "draw", text, trace)
    ended, plain = says(sts, "plain", text, trace)
    told = says(look, "view", text, trace, "--each")[1]
    heads = parts(told)[1]
    last = says(look, "view", text, trace)[1]
    try:
        picture = ElementTree.fromstring(printed)
    except ElementTree.ParseError as fault:
        yield f"{name} drawn: {fault}", False
        return
    title, described = (picture.find(SVG + it).text for it in ("title", "desc"))
    yield f"{name} drawn, status", status == ended
    yield f"{name} drawn, title", title.split() == f"{text}, {trace}: {plain}".split()
    yield f"{name} drawn, description", described == without_lines(last)
    yield f"{name} drawn, lanes", len(of_class(picture, "name")) == len(re.findall("^task ", last, flags=re.M))
    yield f"{name} drawn, columns", len(of_class(picture, "number")) == len(heads)
    yield f"{name} drawn, idle", len(of_class(picture, "idle")) == sum(it.endswith(" idle\n") for it in heads)
    yield f"{name} drawn, steps", len(of_class(picture, "step")) == int(plain.split()[-1])
    yield f"{name} drawn twice", says(look, "draw", text, trace) == (status, printed)
    yield from halves(look, folder, text, picture)


def in_columns(picture, skipped):
    """Returns the elements of a picture that are right of its first column and of that many more, with their places from there."""
    found, first = [], 232 + 24 * skipped
    for it in picture:
        place = re.match(r"M(\d+) (.*)", it.get("d") or f"M{it.get('x') or 0} {it.get('y')}")
        if it.get("class") and int(place[1]) >= first:
            found.append((it.tag, it.get("class"), int(place[1]) - first, place[2], *it.itertext()))
    return found


def left_out(first, last):
    """Returns what a picture says of events that it leaves out."""
    return f" (event {first} left out)\n" if first == last else f" (events {first} to {last} left out)\n"


def untitled(printed):
    """Returns a picture without its heading's names of files, and without its width, which depends on them."""
    return re.sub(r"(?<=viewBox='0 0 )\d+|(?<= width=')\d+(?=' height='\d+'>)|(?<=>)[^<>\n]*, [^<>\n]*: (?=\S.*\n steps )", "", printed)


def halves(look, folder, text, picture):
    """Yields whether the first events of an example, and the others, are drawn as they have to be, and whether all are."""
    name, trace = os.path.basename(text), text[:-4] + ".trace"
    with open(trace) as steps:
        events = steps.readlines()
    half, count = len(events) // 2, len(events)
    *_, path = beginnings(folder, events[:half])
    status, printed = says(look, "draw", text, trace, "--events", f"1..{half}")
    later = left_out(half + 1, count)
    yield f"{name}, its first half", printed.count(later) == 2
    drawn_half = says(look, "draw", text, path)
    yield f"{name}, its first half drawn", (status, untitled(printed.replace(later, ""))) == (drawn_half[0], untitled(drawn_half[1]))
    other = ElementTree.fromstring(says(look, "draw", text, trace, "--events", f"{half + 1}..{count}")[1])
    yield f"{name}, its other half drawn", in_columns(other, 0) == in_columns(picture, half)
    yield f"{name}, its other half", other.find(SVG + "title").text == picture.find(SVG + "title").text + left_out(1, half)
    yield f"{name}, all its events", says(look, "draw", text, trace, "--events", f"1..{count}") == says(look, "draw", text, trace)


def wide_trace():
    """Returns the events of a run of WIDE: `main` forks all subtasks, then each takes its steps, then `main` goes on."""
    return "step 0\n" * 131_118 + "".join(f"step {task}\n" * 2 for task in range(1, 65_536)) + "step 0\n" * 3


def large_of_look(look, folder):
    """Yields whether `look` is right about large runs and texts."""
    text, trace = (os.path.join(folder, it) for it in ("text", "trace"))

    def write(path, content):
        with open(path, "w") as file:
            file.write(content)

    write(text, WIDE)
    write(trace, wide_trace())
    subtasks = "".join(f"task {it} under 0 in kid at 2, after line 3 success 0\n" for it in range(1, 65_536))
    root = "task 0 under - in main at 11, after line 16 success 65535"
    viewed = f"success 65535\nsteps 262191\n{root}\n{subtasks}scope 0 of 0 all closed cancelled\n"
    yield "the view of 65,536 tasks", says(look, "view", text, trace) == (0, viewed)
    status, printed = says(look, "tell", text, trace)
    ended = [line.split(" ", 1)[1] for line in printed.splitlines() if ": ret, " in line]
    told = [f"task {it}, kid, line 3: ret, success 0; the joiner of scope 0 is told" for it in range(1, 65_536)]
    yield "65,536 tasks told", status == 0 and ended == [*told, "task 0, main, line 16: ret, success 65535"]
    yield "65,536 tasks explained", says(look, "explain", text, trace) == (0, "success 65535\n")
    status, printed = says(look, "draw", text, trace)
    title = f"{text}, {trace}: success 65535\n steps 262191\n (events 1 to 260191 left out)\n"
    yield "65,536 tasks drawn", status == 0 and f"<title>{title}</title>" in printed and f"<desc>{without_lines(viewed)}</desc>" in printed
    yield "65,536 lanes", len(re.findall(r"<text class='name'", printed)) == 65_536
    yield "2,000 columns", re.findall(r"(?s)<text class='number'[^>]*>.*?</title>(\d+)<", printed) == [*map(str, range(260_192, 262_192))]
    # 64 functions of 4,096 instructions, and a comment up to the last byte that a text may have
    body = "push 0\n" + "dup\neq\n" * 2_047 + "ret\nend\n"
    largest = "".join(f"func {name} 0\n{body}" for name in [*(f"f{it}" for it in range(63)), "main"])
    write(text, largest + ";" * (1_048_575 - len(largest)) + "\n")
    yield "the largest text", says(look, "explain", text) == (0, "accepted\n")
    # 300 functions of four lines each
    many = "".join(f"func f{it} 0\npush 0\nret\nend\n" for it in range(300))
    write(text, many)
    explained_so = "error A9 C1 in f64, line 257: func f64 0\nthere are more than 64 functions\n"
    yield "300 functions", says(look, "explain", text) == (3, explained_so)
    # the text of V17 in docs/VERIFIER.md, after 63 functions of four lines each
    few = "".join(f"func f{it} 0\npush 0\nret\nend\n" for it in range(63))
    write(text, f"{few}func main 0\npush 757\ntimes 757\npush 1318\ntimes 1318\nnext\nnext\npush 0\nret\nend\n")
    page = re.search(r"^    refused V17 in main, at its end\n(    .*\n)+", read("docs/VERIFIER.md"), re.M)[0]
    right = re.sub(r"line (\d+)", lambda it: f"line {int(it[1]) + 4 * 63}", dedented(page))
    yield "the budget of the last of 64 functions", says(look, "explain", text) == (4, right)


def tried(look, sts):
    with tempfile.TemporaryDirectory() as folder:
        for text in sorted(glob.glob(os.path.join(ROOT, "examples", "*.sts"))):
            yield f"{os.path.basename(text)} explained", says(look, "explain", text) == relied.accepted(os.path.basename(text)[:-4])
        for text in sorted(glob.glob(os.path.join(ROOT, "examples", "*.sts"))):
            yield from example(look, sts, folder, text)
            yield from drawing(look, sts, folder, text)
            yield from story(look, text)
        yield from large_of_look(look, folder)
    yield "the stored pictures", list(drawn.stale(look)) == []


def large(look):
    with tempfile.TemporaryDirectory() as folder:
        yield from large_of_look(look, folder)


def main():
    (look, sts), parts = programs.taken(sys.argv[1:], "look", "sts")
    return tally.holding(large(look) if tally.parts(parts, ["large_of_look"]) and parts else tried(look, sts))
