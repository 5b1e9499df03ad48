#!/usr/bin/env python3
"""Opens the built page in a headless Chromium and compares it with the programs.  usage: test.py [STS [LOOK]|--unproved]

- each call answers what `sts` and `look` print, with their status: over every example and every beginning of its trace, and
  over texts and traces with faults, refused texts, and runs that fault;
- the ends of the programs of checks/ends.rows are those that were worked out by hand. The page shows what `look ends` prints,
  also without expiries and with interrupts. A click on an end plays the trace that `look ends --trace` writes, and `sts` comes
  to that end by it. A search stops after 1,000 states, and on request after 20,000;
- texts are explained as the rows of checks/look_rows say, and the line that is named is marked and in view;
- every example is played by the page's own buttons, after each event of its trace. There is a button for each event that
  counts there and no other, as `look view --each` says. Next to the listing is a number for each task that lives, at its
  instruction. A click on the number of a task that is ready writes its step. The page shows what `look view`,
  `look explain` and `look draw` print for the trace. The buttons of the columns, and First to Last, show the tasks and
  scopes after each event;
- the page does the same with texts and traces with faults, and with runs that fault. It passes a trace on as it is written,
  except for the last newline. It keeps the place over faults;
- a link carries the text and the trace, and the picture is saved as SVG and PNG;
- the words and marks are explained as docs/LOOK.md does; the keyboard plays; every control has a name for screen readers.

Pictures of the page, light and dark, are left in page/out. The last line is `N passed, M failed`, of comparisons; where no
Chromium is here it is `page: skipped, no Chromium here`, with status 0.
"""
import glob
import json
import os
import re
import subprocess
import sys
import tempfile

import time

import browser

HERE = os.path.dirname(os.path.realpath(__file__))
ROOT = os.path.dirname(HERE)
sys.path.append(ROOT)
from checks.programs import taken  # noqa: E402
from checks.tests import ends, look_rows  # noqa: E402
from checks.tests.looks import untitled, without_lines  # noqa: E402

PAGE = os.path.join(HERE, "out", "index.html")
EXAMPLES = sorted(glob.glob(os.path.join(ROOT, "examples", "*.sts")))
NAMES = [os.path.basename(it) for it in EXAMPLES]
LOOK_PAGE = os.path.join(ROOT, "docs", "LOOK.md")
# Lines of `view`.
BORN = re.compile(r"^(task|scope) (\d+) ", re.M)
LIVING = re.compile(r"^task (\d+) under \S+ in (\S+) at (\d+) (ready|waits)\b", re.M)
HEAD = re.compile(r"^after .*", re.M)
# The line that an explanation is about: in its first line, or where a budget is passed in its third.
ABOUT = re.compile(r".*?, line (\d+):|.*, at its end\n.*\n.* here, line (\d+):")

# Texts with a fault, texts that are refused, and traces with a fault or up to a fault of the run.
ODD = [
    ("", ""),
    ("func main 0\npuhs 7\nret\nend\n", "step 0\n"),
    ("func main 0\npush 1 ; \u00e9\nret\nend\n", ""),
    ((";" * 1023 + "\n") * 1024 + "\n", ""),
    ("func main 0\npop\nret\nend\n", "step 0\n"),
    ("func main 0\npush 1\nret\nend\n", "step 0\nstep 01\n"),
    ("func main 0\npush 1\nret\nend\n", "step 7\nexpire 0\ninterrupt 0\nstep 0\nstep 0\n"),
    ("func main 0\nopen s0 all\npush 1\nret\nend\n", "step 0\nstep 0\nstep 0\nstep 0\n"),
    ("func main 0\npush 1\npush 0\ndiv\nret\nend\n", "step 0\nstep 0\nstep 0\n"),
]

# Traces as they are written, with an empty line or an unended one, and as they are passed on.
WRITTEN = [
    ("", ""),
    ("\n", "\n"),
    ("step 0\n\nstep 0\n", "step 0\n\nstep 0\n"),
    ("step 0\n\n", "step 0\n\n"),
    ("\n\nstep 01\n", "\n\nstep 01\n"),
    ("step 0\n  \nstep 01\n", "step 0\n  \nstep 01\n"),
    ("step 0\nstep 0", "step 0\nstep 0\n"),
    ("step 0\n ", "step 0\n \n"),
]
# The bounds of a search, as page.js has them.
AT_ONCE, ON_REQUEST = 1000, 20000
# Two subtasks race to be the first success: the value is 5 or 4, and nothing else can happen.
RACE = (
    "func give 1\nload 0\nret\nend\nfunc main 0\nopen s0 any\npush 5\nfork s0 give _\npush 4\nfork s0 give _\njoin s0 bad - intr\nclose s0\n"
    "ret\nbad:\nclose s0\nfail\nintr:\npush 0\nclose s0\nfail\nend\n"
)
# Which of two subtasks comes first is kept as a bit of a local, 14 times: far more states than any search here may keep.
MANY_STATES = (
    "func kid 1\nload 0\nret\nend\nfunc main 0\npush 14\ntimes 14\nopen s1 any\npush 0\nfork s1 kid _\npush 1\nfork s1 kid _\n"
    "join s1 bad - intr\nload 0\npush 2\nmul\nadd\nstore 0\nclose s1\nnext\npush 7\nret\nbad:\nclose s1\nfail\nintr:\npush 0\nclose s1\n"
    "fail\nend\n"
)
# (a round has 13 instructions of `main`, of which `close` takes two steps, and two of each subtask: 18 events. Four are outside)
MANY_ENDS = "1 after 256 events: success 7\n"
PATIENCE = 10  # seconds that a search of the page may take at most
# Which events may come: as the page's calls take it, and as words of `look ends`.
EVENTS = [
    ({}, []),
    ({"expiries": False}, ["--no-expiries"]),
    ({"interrupts": 1}, ["--interrupts", "1"]),
    ({"expiries": False, "interrupts": 2}, ["--no-expiries", "--interrupts", "2"]),
]
# A subtask that succeeds with 5, fails with 6 if it is interrupted, and its scope may expire before it ends.
PATIENT = (
    "func give 0\ninterrupted\njz well\npush 6\nfail\nwell:\npush 5\nret\nend\nfunc main 0\nopen s0 all timed\nfork s0 give _\n"
    "join s0 bad late intr\npop\ntotal s0\nclose s0\nret\nbad:\nclose s0\nfail\nlate:\npush 7\nclose s0\nfail\nintr:\npush 8\nclose s0\nfail\nend\n"
)
# A text whose longest path ends in line 10.
TOO_LONG = "func main 0\npush 499\ntimes 499\npush 2001\ntimes 2001\nnext\nnext\npush 0\npush 0\nret\nend\n"


def read(path):
    with open(path) as file:
        return file.read()


class Programs:
    """The built programs, over texts and traces that are put into files."""

    def __init__(self, sts, look, folder):
        self.sts, self.look = sts, look
        self.paths = [os.path.join(folder, name) for name in ("text", "trace")]

    def says(self, program, mode, texts, *options):
        paths = self.paths[:len(texts)]
        for path, text in zip(paths, texts):
            with open(path, "w") as file:
                file.write(text)
        words = [program, mode, *paths, *options]
        done = subprocess.run(words, stdin=subprocess.DEVNULL, capture_output=True, text=True, timeout=120)
        return [done.returncode, done.stdout]

    def view(self, text, trace, *options):
        return self.says(self.look, "view", [text, trace], *options)

    def explain(self, text, trace):
        return self.says(self.look, "explain", [text, trace])

    def draw(self, text, trace, *options):
        """Returns the status and the picture without what depends on the names of the files: the page has none."""
        status, printed = self.says(self.look, "draw", [text, trace], *options)
        return [status, untitled(printed)]

    def ends(self, text, most=AT_ONCE, events=()):
        return self.says(self.look, "ends", [text], "--most", str(most), *events)

    def ends_and_trace(self, text, number, events=()):
        """Returns also the trace of the end of this number."""
        with tempfile.NamedTemporaryFile("r") as trace:
            printed = self.says(self.look, "ends", [text], "--most", str(AT_ONCE), *events, "--trace", str(number), trace.name)
            return [*printed, trace.read()]

    def heads(self, text, trace):
        """Returns the lines that tell each event, and whether it counted."""
        return HEAD.findall(self.view(text, trace, "--each")[1])

    def counting(self, text, trace):
        """Returns those events that count behind the trace, of all for a task or a scope that was born."""
        words = {"task": ("step", "interrupt"), "scope": ("expire",)}
        born = BORN.findall(self.view(text, trace)[1])
        events = [f"{word} {number}" for kind, number in born for word in words[kind]]
        return [it for it in events if not self.heads(text, f"{trace}{it}\n")[-1].endswith(" idle")]

    def marks(self, text, trace):
        """Returns of each task that lives the line of the listing where it is, its number, and whether it can step."""
        lines = places(self.says(self.sts, "list", [text])[1])
        viewed = without_lines(self.view(text, trace)[1])
        living = [(lines.get((name, int(place))), task, stands) for task, name, place, stands in LIVING.findall(viewed)]
        can_step = not viewed.startswith("fault ")
        return [[line, task, can_step and stands == "ready"] for line, task, stands in living if line is not None]


def places(listing):
    """Returns the line of a listing for each function's name and number of an instruction; lines count from 0."""
    found, name, count = {}, None, 0
    for number, line in enumerate(listing.splitlines()):
        if line.startswith("func "):
            name, count = line.split()[1], 0
        elif line.startswith("  "):
            found[name, count] = number
            count += 1
    return found


class Page:
    """The page in the browser."""

    def __init__(self, chromium):
        self.chromium = chromium

    def call(self, name, *words):
        """Returns the status and what is printed, of a call of proved code."""
        told = f"((it) => [it.status, it.text])(calls.{name}({', '.join(map(json.dumps, words))}))"
        return self.chromium.value(told)

    def ends_and_trace(self, text, number, events):
        words = ", ".join(map(json.dumps, (text, AT_ONCE, number, events)))
        return self.chromium.value(f"((it) => [it.status, it.text, it.trace])(calls.endsAndTrace({words}))")

    def click(self, selector):
        """Clicks, and returns whether there is such an element."""
        found = f"document.querySelector({json.dumps(selector)})"
        return self.chromium.value(f"{found} !== null && ({found}.click(), true)")

    def text_of(self, identity):
        return self.chromium.value(f"element({json.dumps(identity)}).textContent")

    def written(self, identity):
        return self.chromium.value(f"element({json.dumps(identity)}).value")

    def checked(self, identity):
        return self.chromium.value(f"element({json.dumps(identity)}).checked")

    def write(self, identity, text):
        found = f"element({json.dumps(identity)})"
        self.chromium.value(f"{found}.value = {json.dumps(text)}, {found}.dispatchEvent(new Event('input'))")

    def choose(self, number):
        self.chromium.value(f"element('example').selectedIndex = {number}, element('example').onchange()")

    def each(self, selector, told):
        """Returns the value of an expression for each element `it`."""
        return self.chromium.value(f"[...document.querySelectorAll({json.dumps(selector)})].map((it) => {told})")

    def tap(self, selector):
        """Clicks with the mouse where an element is seen."""
        found = f"document.querySelector({json.dumps(selector)})"
        self.chromium.value(f"{found}.scrollIntoView({{ block: 'center' }})")
        middle = f"((it) => [it.x + it.width / 2, it.y + it.height / 2])({found}.getBoundingClientRect())"
        self.chromium.tap(*self.chromium.value(middle))

    def shown(self):
        """Returns the lines of tasks and scopes, as they are shown."""
        return "".join(self.each("#stands .words", "it.textContent + '\\n'"))

    def ends(self):
        """Returns the lines of ends, as they are shown."""
        return "".join(self.each("#ends li", "it.textContent + '\\n'"))

    def buttons(self):
        """Returns the events that have a button next to a task or a scope."""
        return self.each("#stands button", "it.dataset.event")

    def marks(self):
        """Returns the line of each number next to the listing, the number, and whether it can be clicked."""
        line = "[...element('listing').children].indexOf(it.parentElement)"
        return self.each("#listing .task", f"[{line}, it.textContent, it.matches('button:enabled')]")

    def drawn(self):
        """Returns the picture that is shown, or nothing where none is."""
        return "".join(self.each("#picture img", "decodeURIComponent(it.getAttribute('src').replace(/^[^,]*,/, ''))"))

    def marked(self):
        """Returns the lines of the text and of its numbers at which a mark is seen, whole, within the editor."""
        seen = "((mark, box) => mark.height > 0 && mark.top >= box.top && mark.bottom <= box.bottom)"
        seen += "(it.getBoundingClientRect(), element('editor').getBoundingClientRect())"
        top = "(it.getBoundingClientRect().top - element('text').getBoundingClientRect().top)"
        line = f"Math.round({top} / it.getBoundingClientRect().height) + 1"
        return [it for it in self.each(".mark", f"{seen} ? {line} : null") if it is not None]


def same_calls(page, programs, name, text, traces):
    """Yields whether the calls over a text and these traces answer what the programs print."""
    for mode, program in (("verify", programs.sts), ("list", programs.sts), ("explain", programs.look)):
        yield f"{mode} of {name}", page.call(mode, text) == programs.says(program, mode, [text])
    for trace in traces:
        events = trace.count("\n")
        plain = programs.says(programs.sts, "plain", [text, trace])
        yield f"plain of {name} after {events}", page.call("plain", text, trace) == plain
        explained = programs.explain(text, trace)
        yield f"explain of {name} after {events}", page.call("explainRun", text, trace) == explained
        for words, options in (([], {}), (["--brief"], {"brief": True})):
            status, drawn = page.call("draw", text, trace, options)
            yield f"draw of {name} after {events} {words}", [status, untitled(drawn)] == programs.draw(text, trace, *words)
        for option in ("each", "full"):
            status, viewed = programs.view(text, trace, f"--{option}")
            yield f"view of {name} after {events}, {option}", page.call("namedView", text, trace, {option: True}) == [status, viewed]
            plain = [status, without_lines(viewed)]
            yield f"view without lines of {name} after {events}, {option}", page.call("view", text, trace, {option: True}) == plain


def same_ends(page, programs, name, text):
    """Yields whether the calls for the ends of a text answer what `look ends` prints, and the trace that it writes."""
    yield f"ends of {name} in 2 states", page.call("ends", text, 2) == programs.ends(text, 2)
    for events, words in EVENTS:
        printed = programs.ends(text, AT_ONCE, words)
        yield f"ends of {name} {words}", page.call("ends", text, AT_ONCE, events) == printed
        for number in range(len(ends_of(printed[1])) + 2):
            found = page.ends_and_trace(text, number, events)
            yield f"ends of {name} {words} with trace {number}", found == programs.ends_and_trace(text, number, words)


def ends_of(printed):
    """Returns the ends that lines of ends name, by their numbers."""
    found = [ends.LINE.fullmatch(it) for it in printed.splitlines()]
    return {it[1]: it[3] for it in found if it}


def beginnings(trace):
    lines = trace.splitlines(keepends=True)
    return ["".join(lines[:count]) for count in range(len(lines) + 1)]


def all_calls(page, programs):
    for path in EXAMPLES:
        traces = beginnings(read(f"{path[:-4]}.trace"))
        yield from same_calls(page, programs, os.path.basename(path), read(path), traces)
        yield from same_ends(page, programs, os.path.basename(path), read(path))
    for number, (text, trace) in enumerate(ODD):
        yield from same_calls(page, programs, f"odd text {number}", text, [trace])
        yield from same_ends(page, programs, f"odd text {number}", text)


def is_utf_8(content):
    try:
        return content.decode() is not None
    except UnicodeDecodeError:
        return False


def rows():
    """Yields the text, the explanation and the status of each row of explanations of texts that the page's field can hold."""
    for _, _, _, text, words, events, status, printed in look_rows.tables():
        if words == ["explain"] and events is None and is_utf_8(text):
            yield text.decode(), printed.decode(), status


def explanations(page):
    found = list(rows())
    yield "there are rows of explanations", len(found) > 20
    for text, lines, status in found:
        yield f"explanation {lines!r}", page.call("explain", text) == [status, lines]


def ends_by_hand(page):
    """Yields whether a call finds the ends of each program of checks/ends.rows, without interrupts."""
    asked = [(text, found) for _, text, words, found in ends.rows() if words == ends.options("timed" in text, 0)]
    yield "there are programs with their ends", len(asked) > 30
    for text, found in asked:
        status, printed = page.call("ends", text, ON_REQUEST)
        is_right = sorted(ends_of(printed).values()) == sorted(ends.by_line(text, it) for it in found)
        yield f"the ends of {text!r}", status == 0 and is_right


def end_played(page, programs, what, text, number, end, words=()):
    """Clicks the line of an end, and yields whether its trace is played, which leads to this end."""
    trace = programs.ends_and_trace(text, number, words)[2]
    yield f"{what}: a click on end {number}", page.click(f'#ends [data-end="{number}"]')
    yield f"{what}: the lines after it", page.ends() == programs.ends(text, AT_ONCE, words)[1]
    yield f"{what}: the trace of end {number}", page.written("trace") == trace
    yield f"{what}: its end", ends.by_line(text, programs.says(programs.sts, "plain", [text, trace])[1].splitlines()[0]) == end
    yield from stands(page, programs, f"{what}: after end {number}", text, trace, trace)


def all_ends_played(page, programs):
    """Yields whether the page lists the ends of each example, also after an edit, and plays each."""
    for number, path in enumerate(EXAMPLES):
        page.choose(number)
        yield f"{NAMES[number]}: its ends", page.ends() == programs.ends(read(path))[1]
        for place, end in ends_of(page.ends()).items():
            yield from end_played(page, programs, NAMES[number], read(path), place, end)
    page.write("text", RACE)
    yield "the two ends of a race", sorted(ends_of(page.ends()).values()) == ["success 4", "success 5"]
    yield "its last line", bool(re.fullmatch(r"\d+ states, all schedules", page.ends().splitlines()[-1]))
    for place, end in ends_of(page.ends()).items():
        yield from end_played(page, programs, "a race", RACE, place, end)
        yield f"the end that is shown: {end}", page.shown().startswith(f"{end}\n")
    for text, _ in ODD:
        page.write("text", text)
        yield f"the ends of {text[:40]!r}", page.ends() == programs.ends(text)[1]
        for place, end in ends_of(page.ends()).items():
            yield from end_played(page, programs, repr(text[:40]), text, place, end)


def events_chosen(page, programs):
    """Yields whether the fields below the ends decide which events may come, also when an end is clicked."""
    page.write("text", PATIENT)
    expected = [["failed 7", "success 5"], ["success 5"], ["failed 6", "failed 7", "failed 8", "success 5"], ["failed 6", "failed 8", "success 5"]]
    for (_, words), by_hand in zip(EVENTS, expected):
        if page.checked("expiries") == ("--no-expiries" in words):
            page.click("#expiries")
        page.write("interrupts", words[-1] if "--interrupts" in words else "0")
        what = f"a patient program {words}"
        yield f"{what}: the ends by hand", sorted(ends_of(page.ends()).values()) == by_hand
        yield f"{what}: the ends", page.ends() == programs.ends(PATIENT, AT_ONCE, words)[1]
        for place, end in ends_of(page.ends()).items():
            yield from end_played(page, programs, what, PATIENT, place, end, words)
    page.click("#expiries")
    for written in ("", "-1", "100", "1.5"):
        page.write("interrupts", written)
        yield f"{written!r} interrupts are none", page.ends() == programs.ends(PATIENT)[1]
    page.write("interrupts", "0")


def searches_stopped(page, programs):
    """Yields whether a search stops early, says so, and goes further on request, and whether the browser stays usable."""
    more = "element('more').checkVisibility()"
    page.write("text", RACE)
    yield "a whole search needs no more states", page.chromium.value(more) is False
    begun = time.monotonic()
    page.write("text", MANY_STATES)
    yield "a search stops", page.ends() == f"{MANY_ENDS}stopped at 1000 states, not all schedules\n"
    yield "more states are offered", page.chromium.value(more) is True and page.text_of("more") == "Search 20000 states"
    page.click("#more")
    yield "it stops later", page.ends() == f"{MANY_ENDS}stopped at 20000 states, not all schedules\n"
    yield "both are done in time", time.monotonic() - begun < PATIENCE
    yield "no more states are offered", page.chromium.value(more) is False
    page.write("text", RACE)
    yield "another text is searched", page.ends() == programs.ends(RACE)[1]


def stands(page, programs, what, text, trace, whole):
    """Yields whether the page shows how the run of a whole trace stands after a beginning of it."""
    yield f"{what}: what stands", page.shown() == programs.view(text, trace)[1]
    yield f"{what}: what is told", page.text_of("told") == programs.explain(text, trace)[1]
    yield f"{what}: the picture", untitled(page.drawn()) == programs.draw(text, whole)[1]
    yield f"{what}: the numbers next to the listing", sorted(page.marks()) == sorted(programs.marks(text, trace))


def marks_clicked(page, programs, what, text, before):
    """Clicks each number next to the listing that can be clicked, and yields whether that plays a step of its task."""
    for task in [task for _, task, is_ready in programs.marks(text, before) if is_ready]:
        after = f"{before}step {task}\n"
        yield f"{what}: the number {task} is there", page.click(f'#listing button[data-event="step {task}"]')
        yield f"{what}: the trace with step {task}", page.written("trace") == after
        yield from stands(page, programs, f"{what} and a click on {task}", text, after, after)
        page.write("trace", before)
        page.click("#last")


def event_played(page, programs, what, text, before, after):
    """Plays an event by its button; one that doesn't count has none, and is written into the trace."""
    event = after[len(before):].rstrip()
    yield f"{what}: a button for each event that counts", sorted(page.buttons()) == sorted(programs.counting(text, before))
    yield from marks_clicked(page, programs, what, text, before)
    if not page.click(f'#stands [data-event="{event}"]'):
        yield f"{what}: {event} is idle", programs.heads(text, after)[-1].endswith(f" {event} idle")
        page.write("trace", after)
        page.click("#last")
    yield f"{what}: the trace with {event}", page.written("trace") == after
    yield from stands(page, programs, f"{what} and {event}", text, after, after)


def columns(page, programs, name, text, trace):
    """Clicks the button of each column, and yields whether that shows the tasks and scopes after its event."""
    heads = ["before the first event", *programs.heads(text, trace)]
    yield f"{name}: a button for each column", len(page.each(".columns button", "0")) == len(heads)
    for number, (head, events) in enumerate(zip(heads, beginnings(trace))):
        page.click(f".columns button:nth-child({number + 1})")
        yield f"{name}: the head of column {number}", page.text_of("head") == head
        current = page.each(".columns [aria-current]", "it.textContent")
        yield f"{name}: column {number} is the current one", current == [str(number)]
        yield from stands(page, programs, f"{name}: column {number}", text, events, trace)
    yield f"{name}: the columns leave the trace", page.written("trace") == trace


def by_steps(page, programs, name, text, trace):
    """Goes through the run by First, Back, Forward and Last."""
    page.click("#last")
    for step, events in (("back", beginnings(trace)[-2]), ("first", ""), ("forward", beginnings(trace)[1]), ("last", trace)):
        page.click(f"#{step}")
        yield from stands(page, programs, f"{name}: by {step}", text, events, trace)


def in_full(page, programs, name, text, trace):
    """Yields whether all is shown on request, of the course as well."""
    details = page.each("#picture img", "document.getElementById(it.getAttribute('aria-details')).id")
    yield f"{name}: the picture leads to its course", details == ["course"]
    yield f"{name}: the course", page.text_of("course-words") == programs.view(text, trace, "--each")[1]
    page.click("#full")
    yield f"{name}: in full", page.shown() == programs.view(text, trace, "--full")[1]
    yield f"{name}: the course in full", page.text_of("course-words") == programs.view(text, trace, "--each", "--full")[1]
    page.click("#full")


def in_brief(page, programs, name, text, trace):
    """Yields whether the picture has the events that `tell` lists alone if that is asked for."""
    page.click("#brief")
    yield f"{name}: in brief", untitled(page.drawn()) == programs.draw(text, trace, "--brief")[1]
    page.click("#brief")
    yield f"{name}: not in brief", untitled(page.drawn()) == programs.draw(text, trace)[1]


def played(page, programs, number, path):
    """Plays an example by the buttons, event by event, and back."""
    name, text, trace = os.path.basename(path), read(path), read(f"{path[:-4]}.trace")
    page.choose(number)
    page.write("trace", "")
    yield f"{name}: the root stands in the beginning", [it[1:] for it in page.marks()] == [["0", True]]
    for count, (before, after) in enumerate(zip(beginnings(trace), beginnings(trace)[1:])):
        yield from event_played(page, programs, f"{name}: after {count}", text, before, after)
    yield f"{name}: nothing counts in the end", page.buttons() == programs.counting(text, trace)
    yield f"{name}: no task steps in the end", page.click("#stands [data-event^=step]") is False
    yield f"{name}: no task lives in the end", page.marks() == []
    yield from columns(page, programs, name, text, trace)
    yield from by_steps(page, programs, name, text, trace)
    yield from in_full(page, programs, name, text, trace)
    yield from in_brief(page, programs, name, text, trace)


def all_played(page, programs):
    for number, path in enumerate(EXAMPLES):
        yield from played(page, programs, number, path)


def faults_told(page, programs):
    """Yields whether the page says with line numbers where a run is or faulted, or what is wrong with a text or a trace."""
    for text, trace in ODD:
        page.write("text", text)
        page.write("trace", trace)
        page.click("#last")
        what = repr(text[:40])
        verdict = programs.says(programs.look, "explain", [text])[1]
        yield f"the verdict of {what}", page.text_of("verdict").startswith(verdict)
        yield f"what stands of {what}", page.shown() == programs.view(text, trace)[1]
        yield f"what is told of {what}", page.text_of("told") == programs.explain(text, trace)[1]
        yield f"what can be played of {what}", sorted(page.buttons()) == sorted(programs.counting(text, trace))
        yield f"the numbers next to {what}", sorted(page.marks()) == sorted(programs.marks(text, trace))


def as_written(page, programs):
    """Yields whether a trace is passed on as it is written, with the newline that its last line lacks and no other."""
    text = read(EXAMPLES[0])
    page.write("text", text)
    for trace, passed in WRITTEN:
        page.write("trace", trace)
        page.click("#last")
        yield f"the message about the trace {trace!r}", page.text_of("told") == programs.explain(text, passed)[1]
        yield f"the state after the trace {trace!r}", page.shown() == programs.view(text, passed)[1]
        yield f"the trace {trace!r} stays", page.written("trace") == trace
    page.write("trace", "step 0\n\n")
    yield "an empty line is T1", page.text_of("told").startswith('error T1, line 2: ""\n')


def verdicts(page, programs):
    """Yields whether texts are shown as accepted, refused or faulty, and their lines marked."""
    text = read(EXAMPLES[0])
    page.write("text", text)
    yield "accepted", page.text_of("verdict") == "accepted\n" + programs.says(programs.sts, "verify", [text])[1]
    yield "no mark", page.marked() == []
    for text, line in (("func main 0\npush 1\npuhs 7\nret\nend\n", 3), ("func main 0\n\npop\nret\nend\n", 3), (TOO_LONG, 10)):
        page.write("text", text)
        yield f"line {line} is marked", page.marked() == [line, line]
        yield f"line {line} is explained", f", line {line}:" in page.text_of("verdict")
    for text, lines, _ in rows():
        about = ABOUT.match(lines)
        page.write("text", text)
        yield f"the line of {lines[:60]!r}", page.marked() == ([int(about[1] or about[2])] * 2 if about else [])
    text = "\n" * 150000 + "puhs 7\n"
    page.write("text", text)
    yield "a text of many lines", page.text_of("verdict") == programs.says(programs.look, "explain", [text])[1]
    yield "its line", page.marked() == [150001, 150001]
    head = page.chromium.value(r"lineOf('error A9 C6 in kid, line 7: func kid 9\na slot, local or key above 15\n')")
    yield "the line of a function's head", head == 7


def in_view(page):
    """Yields whether the editor is scrolled to the line that is marked, but not away from where someone writes."""
    before = "func main 0\n" + "push 1\npop\n" * 40
    page.write("text", f"{before}puhs 7\nret\nend\n")
    yield "line 82 is in view", page.marked() == [82, 82]
    page.write("text", f"{before}push 7\nret\nend\n")
    page.chromium.value("element('text').focus(), element('text').setSelectionRange(0, 0), element('editor').scrollTop = 0")
    write = f"element('text').setRangeText({json.dumps(before + 'puhs')}, 0, {len(before) + 4}, 'start')"
    page.chromium.value(f"{write}, element('text').dispatchEvent(new Event('input'))")
    yield "it stays where someone writes", page.chromium.value("element('editor').scrollTop") == 0
    page.chromium.value("element('text').blur()")
    yield "line 82 is in view afterwards", page.marked() == [82, 82]
    page.choose(0)
    yield "an example begins at its top", page.chromium.value("element('editor').scrollTop") == 0


def place_kept(page, programs):
    """Yields whether the page shows as many events as before, once a fault is fixed or the trace is long enough again."""
    path = EXAMPLES[NAMES.index("failure_stops_siblings.sts")]
    text, trace = read(path), read(f"{path[:-4]}.trace")
    fifth = programs.view(text, beginnings(trace)[5])[1]
    page.choose(EXAMPLES.index(path))
    page.click(".columns button:nth-child(6)")
    for identity, whole, other in (("text", text, f"puhs\n{text}"), ("trace", trace, f"\n{trace}"), ("trace", trace, "")):
        page.write(identity, other)
        yield f"event 5 isn't there with {other[:8]!r}", page.shown() != fifth
        page.write(identity, whole)
        yield f"event 5 is shown again after {other[:8]!r}", page.shown() == fifth


def legends(page):
    """Yields whether the words and marks are explained as docs/LOOK.md explains them, once they are opened."""
    sections = re.findall("<!-- legend: ([^,>]*)(?:,.*)? -->", read(os.path.join(HERE, "index.html")))
    shown_there = "".join(re.search(f"^## {re.escape(it)}\n.*?(?=^## |\\Z)", read(LOOK_PAGE), re.M | re.S)[0] for it in sections)
    tables = re.findall(r"^(\| (?:Line|Drawn|Printed) \|.*\n)\|.*\n((?:\|.*\n)+)", shown_there, re.M)
    lines = [line for head, body in tables for line in [head.strip(), *body.splitlines()]]
    wanted = [[it.strip().replace("`", "") for it in line.strip("|").split("|")] for line in lines]
    shown = page.each(".legend tr", "[...it.children].map((cell) => cell.textContent)")
    yield "the words and marks", sorted(shown) == sorted(wanted)
    for word in ("unheard", "may-expire", "waits close"):
        yield f"{word} is explained", any(word in it[0] for it in wanted)
    yield "they are closed", set(page.each(".legend table", "it.checkVisibility()")) == {False}
    for number in range(len(page.each(".legend", "0"))):
        page.chromium.value(f"document.querySelectorAll('.legend summary')[{number}].click()")
    yield "they are open", set(page.each(".legend table", "it.checkVisibility()")) == {True}
    page.each(".legend", "it.open = false")


def taken_along(page):
    """Yields whether a link carries the text and the trace, and whether the picture can be saved."""
    text, trace = "func main 0\npush 1 ; a & b = \"c\" #1+1\nret\nend\n", "step 0\nstep 0\n"
    page.write("text", text)
    page.write("trace", trace)
    address = page.chromium.value("element('link').getAttribute('href')")
    page.choose(0)
    page.chromium.value(f"location.hash = {json.dumps(address)}, new Promise((done) => setTimeout(done, 100))")
    yield "the text of a link", page.written("text") == text
    yield "the trace of a link", page.written("trace") == trace
    yield "the run of a link", page.shown().startswith("success 1\n")
    saved = "decodeURIComponent(element('save-svg').getAttribute('href').replace(/^[^,]*,/, ''))"
    yield "the picture as SVG", page.chromium.value(saved) == page.drawn()
    yield "the picture as PNG", page.chromium.value("pngOf(drawn).then((it) => it.type)") == "image/png"
    yield "its size", page.chromium.value("pngOf(drawn).then(createImageBitmap).then((it) => it.width)") == 960
    page.write("trace", "step x\n")
    yield "no picture, no file", page.chromium.value("element('saving').checkVisibility()") is False


def mouse(page):
    """Yields whether a number next to the listing and a column can be reached by the mouse."""
    page.choose(NAMES.index("failure_stops_siblings.sts"))
    page.write("trace", "step 0\nstep 0\n")
    page.click("#last")
    page.tap('#listing [data-event="step 1"]')
    yield "a number is clicked", page.written("trace") == "step 0\nstep 0\nstep 1\n"
    page.tap(".columns button:nth-child(2)")
    yield "a column is clicked", page.text_of("head") == "after 1 step 0"


def keyboard(page):
    """Yields whether a button that is pressed by the keyboard plays, and keeps the focus."""
    page.choose(len(EXAMPLES) - 1)
    page.write("trace", "")
    page.chromium.value("document.querySelector('#stands [data-event=\"step 0\"]').focus()")
    page.chromium.press("Enter", 13)
    page.chromium.press("Enter", 13)
    yield "two steps by the keyboard", page.written("trace") == "step 0\nstep 0\n"
    yield "the focus stays", page.chromium.value("document.activeElement.dataset.event") == "step 0"
    page.chromium.value("document.querySelector('.columns button:nth-child(2)').focus()")
    page.chromium.press("Enter", 13)
    yield "a column by the keyboard", page.text_of("head") == "after 1 step 0"
    yield "the focus stays on it", page.each(".columns :focus", "it.textContent") == ["1"]
    page.write("text", RACE)
    page.chromium.value("document.querySelector('#ends [data-end=\"2\"]').focus()")
    page.chromium.press("Enter", 13)
    yield "an end by the keyboard", page.shown().startswith(f"{ends_of(page.ends())['2']}\n")
    yield "the focus stays on the end", page.each("#ends :focus", "it.dataset.end") == ["2"]


def names(page):
    """Yields whether each control has a name for those who can't see the page."""
    nodes = page.chromium.ask("Accessibility.getFullAXTree")["nodes"]
    kinds = {"button", "textbox", "combobox", "checkbox", "DisclosureTriangle", "image"}
    controls = [it for it in nodes if it.get("role", {}).get("value") in kinds and not it.get("ignored")]
    yield "there are controls", len(controls) > 8
    for node in controls:
        yield f"the name of a {node['role']['value']}", bool(node.get("name", {}).get("value"))


def photographed(page):
    page.choose(NAMES.index("failure_stops_siblings.sts"))
    page.click('[title^="after 9 "]')
    page.chromium.value("document.activeElement.blur(), element('listing').scrollTop = 0, scrollTo(0, 0)")
    for scheme in ("dark", "light"):
        page.chromium.prefer(scheme)
        page.chromium.picture(os.path.join(HERE, "out", f"{scheme}.png"))


def tried(path, programs):
    chromium = browser.Browser(path, 1400, 1000)
    try:
        page = Page(chromium)
        chromium.open(f"file://{PAGE}", "document.body?.dataset.ready === 'yes'")
        print(chromium.ask("Browser.getVersion")["product"])
        yield from all_calls(page, programs)
        yield from explanations(page)
        yield from ends_by_hand(page)
        yield from all_played(page, programs)
        yield from all_ends_played(page, programs)
        yield from events_chosen(page, programs)
        yield from searches_stopped(page, programs)
        yield from faults_told(page, programs)
        yield from as_written(page, programs)
        yield from verdicts(page, programs)
        yield from in_view(page)
        yield from place_kept(page, programs)
        yield from legends(page)
        yield from taken_along(page)
        yield from mouse(page)
        yield from keyboard(page)
        yield from names(page)
        photographed(page)
    finally:
        chromium.close()


def main():
    path = browser.program()
    if path is None:
        print("page/test.py: NOTHING WAS TESTED: there is none of", ", ".join(browser.NAMES), file=sys.stderr)
        print("page: skipped, no Chromium here")
        return 0
    (sts, look), _ = taken(sys.argv[1:], "sts", "look")
    if not os.path.exists(PAGE):
        print(f"page/test.py: there is no {PAGE}: page/build.sh makes it", file=sys.stderr)
        return 2
    passed = failed = 0
    with tempfile.TemporaryDirectory() as folder:
        for what, right in tried(path, Programs(sts, look, folder)):
            passed, failed = passed + right, failed + (not right)
            if not right:
                print(f"{what}: not what is expected", file=sys.stderr)
    print(f"{passed} passed, {failed} failed")
    return 1 if failed or not passed else 0


if __name__ == "__main__":
    sys.exit(main())
