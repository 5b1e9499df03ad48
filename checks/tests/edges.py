"""Gives the programs words and files at their edges.  [PROGRAM [LOOK]|--unproved] [PART ..]

PROGRAM is `sts`, LOOK is `look`; each of their commands is tried if it applies. A PART is a function below, such as
`dues_of_sts`; all are tried if none is named.
- Words: all of them count, even if there are 300, and ten may be right. Words that are mistaken, are no text or ask for
  help are answered on standard error alone, with status 2 or 0. The message names the mistaken word, and help names the
  commands, their files and what they print.
- Files: a name is taken as it is, with the blanks around it. FILE is read before the other file, up to a byte more than a
  text may have. A trace is made only under the name that was given, and has the journal.
- Output and status: each command, for each of its statuses.
- Outside events: each is recorded as soon as it is due and those before it are recorded. It counts as an entry, with a
  journal and without one. Standard error has a line for each that had no effect.
- Outside texts: the first fault is reported, and there are at most 4,096 lines.
- Budgets: a run that reaches all four, and for each budget a text with no run that reaches it.
- Large runs: 65,535 subtasks, and a text of 1,048,576 bytes, by 4 workers.
Expected answers were worked out by hand from the rules.  The last line is `N passed, M failed`, of runs.
"""
import os
import sys
import tempfile

from checks import programs, tally
from checks.programs import ROOT
from checks.tests.places import without_lines

SECONDS, LARGE = 60, 600  # how long a run may take, and a large one
MOST = 1_048_576  # The bytes that a text may have.

SEVEN = "func main 0\npush 7\nret\nend\n"
BUDGETS = "main steps 2\nmain tasks 1\nmain scopes 0\nmain binds 0\n"
FAILS = SEVEN.replace("ret", "fail").replace("7", "8")
POPS = "func main 0\npop\nret\nend\n"  # It is refused, and its first step is a fault.
TWICE = "step 0\nstep 0\n"
ENDS = "1 after 2 events: success 7\n3 states, all schedules\n"
# One subtask, which ends; then it is interrupted.
OWNER = "func kid 0\npush 4\nret\nend\nfunc main 0\nopen s0 any\nfork s0 kid _\njoin s0 bad - intr\nclose s0\nret\n" \
    "bad:\nclose s0\nfail\nintr:\npush 0\nclose s0\nfail\nend\n"
ENDED = "step 0\nstep 0\nstep 1\nstep 1\ninterrupt 1\n"
# Its flag is read at steps 1, 4 and 8, and each time gives a digit.
DIGITS = "func main 0\ninterrupted\npush 10\nmul\ninterrupted\nadd\npush 10\nmul\ninterrupted\nadd\nret\nend\n"
# 65,535 subtasks of two steps.  `main` takes 3 + 15 * (2 + 4369 * 2 + 1) steps up to its `join`, and 3 from there.
WIDE = "func kid 0\npush 0\nret\nend\nfunc main 0\nopen s0 all\npush 15\ntimes 15\npush 4369\ntimes 4369\nfork s0 kid _\nnext\nnext\n" \
    "join s0 bad - intr\nclose s0\nret\nbad:\nclose s0\nfail\nintr:\npush 0\nclose s0\nfail\nend\n"
# (a `close` may take two steps, and the longest path is that of an interrupt)
OF_WIDE = "kid steps 2\nkid tasks 1\nkid scopes 0\nkid binds 0\n" \
    "main steps 262193\nmain tasks 65536\nmain scopes 1\nmain binds 0\nsuccess 65535\nsteps 262191\n"
NO_FILE = (6, "error file\n", "")
NOT_TEXT = "error: a word of the command line is not UTF-8\n"


class Folder:
    """A program, and the folder in which it runs."""

    def __init__(self, program, path):
        self.program, self.path = program, path

    def has(self, **files):
        """Puts these files there, and no others."""
        for name in os.listdir(self.path):
            os.remove(os.path.join(self.path, name))
        self.add(files)

    def add(self, files):
        for name, content in files.items():
            with open(os.path.join(self.path, name), "w") as file:
                file.write(content)

    def says(self, *words, given="", seconds=SECONDS):
        """Returns the status, standard output and standard error."""
        status, printed, told = programs.answer(self.program, *words, given=given, seconds=seconds, cwd=self.path)
        return status, printed, "" if self.is_reason(status, told) else told

    def is_reason(self, status, told):
        """Returns whether one line of the program's own says why it failed. Which line, `streams.py` compares."""
        name = os.path.basename(self.program).split(".")[0]  # (`sts.unproved` is `sts`)
        return status in (3, 4, 6) and told.startswith(f"{name}: ") and told.find("\n") == len(told) - 1

    def tells(self, *words):
        """Returns the status, the standard output, and whether there is standard error."""
        status, printed, told = self.says(*words)
        return status, printed, told != ""

    def names_all(self, words, names):
        """Returns the status, what is printed, and which of these names the text on standard error lacks."""
        status, printed, told = self.says(*words)
        return status, printed, [it for it in names if it not in told]

    def read(self, name):
        with open(os.path.join(self.path, name)) as file:
            return file.read()

    def names(self):
        return sorted(os.listdir(self.path))


# Words that ask for nothing, and what the message says of them.
MISTAKES = [
    ("plain text", ["<TRACE>", "Usage", "./sts run FILE --workers 2 --trace TRACE"]),
    ("replay text", ["<TRACE>", "Usage"]),
    ("verify text trace", ["'trace'", "Usage"]),
    ("play text", ["'play'", "Usage"]),
    ("frobnicate", ["'frobnicate'", "Usage"]),
    ("help frobnicate", ["'frobnicate'"]),
    ("--", ["Usage"]),
    ("list", ["<FILE>", "Usage"]),
    ("verify text --workers", ["'--workers'", "Usage"]),
    ("run text", ["--workers <N>", "Usage"]),
    ("run text --workers", ["--workers <N>"]),
    ("run text --workers 1 --workers 2", ["--workers <N>", "Usage"]),
    ("run --workers 1", ["<FILE>", "Usage"]),
    ("run text other --workers 1", ["'other'", "Usage"]),
    ("run text --workers 1 --outside", ["--outside <FILE>"]),
    ("run text --workers 1 --trace", ["--trace <FILE>"]),
]
OF_PROGRAM = ["sts", "verify", "list", "plain", "replay", "run", "prints budgets", "standard input"]
OF_VERIFY = ["sts verify", "FILE", "the text of a program", "prints budgets"]
COMMANDS_OF_LOOK = ["view", "explain", "draw", "ends", "cases"]
# Words that ask for help, and what it has.
HELPS = [
    ("--help", OF_PROGRAM),
    ("-h", OF_PROGRAM),
    ("help", OF_PROGRAM),
    ("help verify", OF_VERIFY),
    ("verify --help", OF_VERIFY),
    ("list -h", ["sts list", "FILE", "the text of a program", "Prints the program as the assembler"]),
    ("plain --help", ["sts plain", "FILE", "TRACE", "`step N`", "`expire N`", "prints the result"]),
    ("replay --help", ["sts replay", "FILE", "TRACE", "without checks"]),
    ("run --help", ["sts run", "FILE", "--workers <N>", "from 1 to 16", "--outside <FILE>", "`at N interrupt T`", "--trace <FILE>", "with N threads"]),
]


def words_of_sts(sts):
    """Yields each trial of the words of `sts`, its result, and the right result. So do the functions below, for other trials."""
    sts.has(text=SEVEN, outside="", trace=TWICE)
    ten = ["run", "--workers", "1", "--outside", "outside", "--trace", "journal", "--", "text"]
    yield "ten words", sts.says(*ten), (0, f"{BUDGETS}success 7\nsteps 2\n", "")
    for more in (["x1"], ["x1", *["x"] * 289]):
        sts.has(text=SEVEN, outside="")
        status, printed, told = sts.says(*ten, *more)
        yield f"{10 + len(more)} words", (status, printed, "x1" in told, sts.names()), (2, "", True, ["outside", "text"])
    for words in (["verify", "text"], ["list", "text"], ["plain", "text", "trace"], ["replay", "text", "trace"]):
        yield f"a word too many: {words}", sts.tells(*words, "text"), (2, "", True)
    for count in ("0", "17", "-1", "+1", "1.0", "", " 1", "1 ", "x", "four", "4294967297", "18446744073709551617"):
        named = sts.names_all(["run", "text", f"--workers={count}"], ["--workers <N>", "expected a number from 1 to 16"])
        yield f"{count!r} workers", named, (2, "", [])
    for count in ("1", "16", "016"):
        yield f"{count} workers", sts.says("run", f"--workers={count}", "text"), (0, f"{BUDGETS}success 7\nsteps 2\n", "")
    for words, names in MISTAKES:
        yield f"{words!r}", sts.names_all(words.split(), names), (2, "", [])
    for words, names in HELPS:
        yield f"{words!r}", sts.names_all(words.split(), names), (0, "", [])
    yield from mistaken(sts, [["verify"], ["list"], ["plain", "text"], ["replay", "text"], ["run", "text"], ["run", "--workers", "1"], ["view"], [""]])
    yield from helped(sts, OF_PROGRAM[1:6])


def of_repository(path):
    with open(os.path.join(ROOT, path)) as file:
        return file.read()


def words_of_look(look):
    """Tries the words of `look`."""
    look.has(text=SEVEN, trace="step 0\n")
    last = "running\nsteps 1\ntask 0 under - in main at 1, line 3 ready\n"
    full = f"{last}  operands 7\n  locals\n  bound\n"
    first = "running\nsteps 0\ntask 0 under - in main at 0, line 2 ready\n"
    each = f"{first}after 1 step 0\n{last}"
    both = f"{first}  operands\n  locals\n  bound\nafter 1 step 0\n{full}"
    none = "not shown: 0 tasks that don't live, 0 closed scopes\n"
    living = [(["--living"], f"{last}{none}"), (["--living", "--full"], f"{full}{none}"), (["--each", "--living"], f"{first}{none}after 1 step 0\n{last}{none}")]
    for more, printed in ([], last), (["--full"], full), (["--each"], each), (["--each", "--full"], both), *living:
        for words in (["view", "text", "trace", *more], ["view", *more, "text", "trace"], ["view", "text", *more, "trace"]):
            yield f"{words}", look.says(*words), (5, printed, "")
    for words in (["view", "text", "trace"], ["explain", "text", "trace"], ["draw", "text", "trace"], ["ends", "text"], ["cases", "text"]):
        status, printed, told = look.says(*words, "x1", *["x"] * 290)
        yield f"300 words: {words}", (status, printed, "x1" in told), (2, "", True)
    yield from mistaken(look, [[], ["view", "text"], ["explain"], ["draw", "text"], ["view", "text", "trace", "--eech"], ["verify", "text"], [""]])
    ends = (["--most"], ["--most", "x"], ["--seconds", "1s"], ["--interrupts", "4294967296"], ["--trace", "1"], ["--trace", "x", "made"], ["trace"])
    yield "explain --lines with a trace", look.names_all(["explain", "text", "trace", "--lines"], ["`explain` takes one of TRACE, `--lines` and `--json`"]), (2, "", [])
    for more in (["--sample", "3"], ["--seed", "1"], ["--seconds", "1"], ["--seconds", "x"]):
        said = look.names_all(["ends", "text", "--calls", *more], ["`ends --calls` goes without", f"`{more[0]}`"])
        yield f"ends --calls {more}", said, (2, "", [])
    for more in (["--most", "x"], ["--interrupts", "-"], ["--trace", "x", "made"]):
        yield f"ends --calls {more}", look.names_all(["ends", "text", "--calls", *more], ["N, S and K of `ends` are numbers"]), (2, "", [])
    yield from mistaken(look, [["ends"], ["cases"], *(["ends", "text", *it] for it in ends)])
    yield from windows(look)
    yield from stories(look)
    yield "no trace is made", look.names(), ["text", "trace"]
    yield from helped(look, COMMANDS_OF_LOOK, is_printed=True)
    for words in (["--version"], ["-V"]):
        yield f"{words}", look.says(*words), (0, f"look {of_repository('VERSION')}", "")


# What is no number of an event. Then FROM and TO for a run of two steps, which ends at TO: its status, and whether event 2 has a line.
NO_EVENTS = ["x", "", "-1", "+1", " 1", "1..2", "4294967296", "18446744073709551617"]
EVENTS = [([], 0, True), (["0"], 0, True), (["2"], 0, True), (["02"], 0, True), (["3"], 0, False), (["4294967295"], 0, False), (["1", "1"], 5, False),
          (["1", "0"], 5, False), (["1", "2"], 0, True), (["0", "4294967295"], 0, True)]


def stories(look):
    """Tries the events that `tell` takes, and words that it doesn't take."""
    for words in NO_EVENTS:
        for given in ([words], ["1", words]):
            said = look.names_all(["tell", *(["--"] if words.startswith("-") else []), "text", "trace", *given], ["FROM and TO of `tell` are numbers of events"])
            yield f"tell {given}", said, (2, "", [])
    look.has(text=SEVEN, trace="step 0\nstep 0\n")
    for given, status, has_line in EVENTS:
        line = "2 task 0, main, line 3: ret, success 7\n" if has_line else ""
        yield f"tell {given}", look.says("tell", "text", "trace", *given), (status, line, "")
    yield from mistaken(look, [["tell"], ["tell", "text"], ["tell", "text", "trace", "1", "2", "3"], ["tell", "text", "trace", "--eech"]])


# Events that can't be drawn, and some that can, with the words of the title that say which of two are left out.
NO_WINDOWS = ["", "1", "1..", "..2", "..", "1.2", "1...2", "1..2..3", "2..1", "0..1", "0..0", "1..0", "a..b", "1..b", "a..2", "-1..2", "+1..2", " 1..2",
              "1 ..2", "1..2 ", "1-2", "1,2", "1..4294967296", "4294967296..4294967296", "1..18446744073709551617"]
WINDOWS = [("1..2", ""), ("1..1", " (event 2 left out)\n"), ("2..2", " (event 1 left out)\n"), ("01..002", ""), ("2..4294967295", " (event 1 left out)\n"),
           ("4294967295..4294967295", " (events 1 to 2 left out)\n"), ("3..3", " (events 1 to 2 left out)\n")]


def windows(look):
    """Tries events that `draw` is asked for."""
    look.has(text=SEVEN, trace=TWICE)
    for words in NO_WINDOWS:
        told = look.names_all(["draw", "text", "trace", f"--events={words}"], ["`--events` takes A..B", "numbers from 1 to 4294967295"])
        yield f"the events {words!r}", told, (2, "", [])
    yield from mistaken(look, [["draw", "text", "trace", *it] for it in (["--events"], ["--events", "1..2", "--events", "1..2"], ["--events", "1", "2"])])
    yield "events of `view`", look.names_all(["view", "text", "trace", "--events", "1..2"], ["'--events'", "Usage"]), (2, "", [])
    for words, left_out in WINDOWS:
        ended = (5, "running\n steps 1\n") if words == "1..1" else (0, "success 7\n steps 2\n")
        for line in (["draw", "text", "trace", "--events", words], ["draw", f"--events={words}", "text", "trace"]):
            status, printed, told = look.says(*line)
            yield f"{line}", (status, printed.split("<title>")[1].split("</title>")[0], told), (ended[0], f"text, trace: {ended[1]}{left_out}", "")


def mistaken(program, lines):
    """Tries words that are mistaken, and one that is no text."""
    for words in lines:
        yield f"mistaken: {words}", program.tells(*words), (2, "", True)
    yield "a word that is no text", program.says("list", b"\xff"), (2, "", NOT_TEXT)


def helped(program, commands, is_printed=False):
    """Tries calls for help. For each command the help says which words follow. `look` writes it to standard output, `sts` to
    standard error."""
    for command in [None, *commands]:
        words = [command, "--help"] if command else ["--help"]
        status, printed, told = program.says(*words)
        text, other = (printed, told) if is_printed else (told, printed)
        names = "FILE" in text and command in text if command else all(it in text for it in commands)
        yield f"help of {command}", (status, other, names), (0, "", True)


def files(program, name, texts, traces):
    """Tries files that are missing, and a text that is too long."""
    for words in [*texts, *traces]:
        program.has(trace=TWICE)
        yield f"no FILE: {name} {words}", program.says(*words), NO_FILE
    for words in traces:
        program.has(text=SEVEN)
        yield f"no file of events: {name} {words}", program.says(*words), NO_FILE
        # FILE comes first: the second file is a pipe that nobody writes to, and opening it would never end
        program.has()
        os.mkfifo(os.path.join(program.path, "trace"))
        yield f"no FILE, and a pipe: {name} {words}", program.says(*words), NO_FILE
    for words in [*texts, *traces]:
        for size, code in ((MOST, "A9 C5"), (MOST + 1, "A8")):
            program.has(text=";" * (size - 1) + "\n", trace="")
            status, printed, told = program.says(*words)
            yield f"{size} bytes: {name} {words}", (status, printed.startswith(f"error {code}"), told), (3, True, "")


NAMES = [" text", "text ", "\ttext", "text\n", " ", "t\u00e9xt", "a=b", "'text'", "%", "t" * 255]


def names_of_sts(sts):
    """Tries names that are taken as they are."""
    decoys = {"text": POPS, "trace": "", "journal": "kept\n"}
    for name in NAMES:
        sts.has(**decoys, **{name: SEVEN})
        yield f"verify {name!r}", sts.says("verify", name), (0, BUDGETS, "")
        yield f"list {name!r}", sts.says("list", name), (0, "func main 0\n  push 7\n  ret\nend\n", "")
        yield f"run {name!r}", sts.says("run", name, "--workers", "1"), (0, f"{BUDGETS}success 7\nsteps 2\n", "")
        sts.has(**decoys, **{name: TWICE})
        sts.add({"seven": SEVEN})
        for mode in ("plain", "replay"):
            yield f"{mode} with {name!r}", sts.says(mode, "seven", name), (0, "success 7\nsteps 2\n", "")
        sts.has(**decoys, **{name: "at 0 interrupt 0\nat 2 interrupt 0\n"})
        sts.add({"seven": SEVEN})
        made = f"{name[:200]}.journal "
        words = ["run", "seven", "--workers", "1", "--outside", name, "--trace", made]
        yield f"{words}", sts.says(*words), (0, f"{BUDGETS}success 7\nsteps 2\n", "")
        there = sorted([*decoys, name, "seven", made])
        journal = sts.read(made) if sts.names() == there else None
        yield f"its journal, {made!r}", (sts.names(), journal), (there, "interrupt 0\nstep 0\n" * 2)
        yield f"the file next to it, {made!r}", sts.read("journal"), "kept\n"


def names_of_look(look):
    """Tries names that are taken as they are, with `look`."""
    for name in NAMES:
        look.has(text=POPS, trace="", **{name: SEVEN})
        yield f"explain {name!r}", look.says("explain", name), (0, "accepted\n", "")
        yield f"explain --lines {name!r}", look.says("explain", "--lines", name), (0, "", "")
        look.add({"seven": SEVEN, name: TWICE})
        ended = "success 7\nsteps 2\ntask 0 under - in main at 2, after line 3 success 7\n"
        yield f"view with {name!r}", look.says("view", "seven", name), (0, ended, "")
        yield f"explain with {name!r}", look.says("explain", "seven", name), (0, "success 7\n", "")
        status, printed, told = look.says("draw", "seven", name)
        yield f"draw with {name!r}", (status, ended.replace(", after line 3", "") in printed, told), (0, True, "")
        look.has(text=POPS, trace="kept\n", **{name: SEVEN})
        made = f"{name[:200]}.trace "
        yield f"ends of {name!r}", look.says("ends", name, "--trace", "1", made), (0, ENDS, "")
        there = sorted({"text", "trace", name, made})
        yield f"its trace, {made!r}", (look.names(), look.read(made) if look.names() == there else None), (there, TWICE)


# A text, a trace, and what `view` prints of them, with its status
VIEWS = [
    (SEVEN, TWICE, "success 7\nsteps 2\ntask 0 under - in main at 2, after line 3 success 7\n", 0),
    (FAILS, TWICE, "failed 8\nsteps 2\ntask 0 under - in main at 2, after line 3 failed 8\n", 1),
    (SEVEN, "", "running\nsteps 0\ntask 0 under - in main at 0, line 2 ready\n", 5),
    (POPS, TWICE, "fault Operand task 0 in main at 0, line 2\nsteps 1\ntask 0 under - in main at 0, line 2 ready\n", 5),
    (SEVEN, "step 0\nstep", "error T3\n", 3),
    (SEVEN, "step 0\nstep 01\n", "error T2 line 2\n", 3),
    ("func main 0\npuhs 7\nret\nend\n", "step\n", "error A2 line 2\n", 3),
    # a task that has ended isn't interrupted
    (OWNER, ENDED, "running\nsteps 4\ntask 0 under - in main at 2, line 8 ready\ntask 1 under 0 in kid at 2, after line 3 success 4\nscope 0 of 0 any opened cancelled\n", 5),
]
# A text, what `explain` prints first, and the status
EXPLAINED = [
    (SEVEN, "accepted\n", 0),
    (POPS, "refused V1 in main, line 2: pop\n", 4),
    ("func main 0\npuhs 7\nret\nend\n", "error A2, line 2: puhs 7\n", 3),
    ("", "error A9 C5\n", 3),
]


def idle(begin, trace):
    """Returns what standard error says of the one of these traces with an event that did nothing."""
    return f'{begin} 5: "interrupt 1" did nothing, since task 1 has ended then\n' if trace == ENDED else ""


def outputs_of_look(look):
    """Tries the output of the commands of `look`, and each status."""
    for text, trace, printed, status in VIEWS:
        look.has(text=text, trace=trace)
        why = idle("look: trace, event", trace)
        yield f"view of {text!r} {trace!r}", look.says("view", "text", "trace"), (status, printed, why)
        for words in (["view", "text", "trace", "--each"], ["explain", "text", "trace"], ["draw", "text", "trace"]):
            ended, _, told = look.says(*words)
            yield f"the status of {words}, {text!r} {trace!r}", (ended, told), (status, why if words[0] == "explain" else "")
    look.has(text=OWNER, trace=ENDED)
    status, printed, _ = look.says("view", "text", "trace", "--each")
    yield "an interrupt of a task that has ended", "after 5 interrupt 1 idle\n" in printed, True
    for text, first, status in EXPLAINED:
        look.has(text=text)
        ended, printed, told = look.says("explain", "text")
        yield f"explain {text!r}", (ended, printed.startswith(first), told), (status, True, "")
        if status == 3:
            yield f"ends of {text!r}", look.says("ends", "text", "--trace", "1", "made"), (status, printed, "")
            yield f"no trace of {text!r}", look.names(), ["text"]


def outputs_of_sts(sts):
    """Tries the output of `sts` for these runs, with files and with one input."""
    for text, trace, printed, status in VIEWS:
        sts.has(text=text, trace=trace)
        plain = "".join(without_lines(printed).splitlines(True)[:2])
        yield f"plain of {text!r} {trace!r}", sts.says("plain", "text", "trace"), (status, plain, idle("sts: trace, line", trace))
        yield f"the input {text!r} {trace!r}", sts.says(given=f"{text}%\n{trace}"), (status, plain, idle("sts: the trace, line", trace))


# Why a line of an outside text has no effect, or comes late.
NOT_ALIVE, NO_EXPIRY = "did nothing, since task {} did not live then", "did nothing, since scope {} could not expire then"
NOT_DUE, HELD = "was never due, since the journal ended with {} events", "never came, since line {} comes first and was never due"
LATER = "waited for line {}, which comes first and is due at {}"

# An outside text, the value of DIGITS with it, its journal in short (`s` is a step, and a number an interrupt of it), and why
# lines of it have no effect.
DUES = [
    ("at 0 interrupt 0", 100, "0 s s s s s s s s s s", {}),
    ("at 1 interrupt 0", 10, "s 0 s s s s s s s s s", {}),
    ("at 3 interrupt 0", 10, "s s s 0 s s s s s s s", {}),
    ("at 4 interrupt 0", 1, "s s s s 0 s s s s s s", {}),
    ("at 7 interrupt 0", 1, "s s s s s s s 0 s s s", {}),
    ("at 8 interrupt 0", 0, "s s s s s s s s 0 s s", {}),
    # an event that is due when the root ends is recorded, and a later one isn't
    ("at 10 interrupt 0", 0, "s s s s s s s s s s 0", {1: NOT_ALIVE.format(0)}),
    ("at 11 interrupt 0", 0, "s s s s s s s s s s", {1: NOT_DUE.format(10)}),
    # an event is an entry, also one that is idle
    ("at 0 interrupt 5 / at 4 interrupt 0", 10, "5 s s s 0 s s s s s s s", {1: NOT_ALIVE.format(5)}),
    ("at 0 interrupt 5 / at 5 interrupt 0", 1, "5 s s s s 0 s s s s s s", {1: NOT_ALIVE.format(5)}),
    ("at 0 interrupt 0 / at 3 interrupt 0", 110, "0 s s 0 s s s s s s s s", {}),
    ("at 0 interrupt 0 / at 0 interrupt 0 / at 7 interrupt 0", 101, "0 0 s s s s s 0 s s s s s", {}),
    # a line that isn't due holds back those after it, and then they come at once
    ("at 4 interrupt 5 / at 0 interrupt 0", 1, "s s s s 5 0 s s s s s s", {1: NOT_ALIVE.format(5), 2: LATER.format(1, 4)}),
    (
        "at 4 interrupt 5 / at 0 interrupt 6 / at 6 interrupt 0", 1, "s s s s 5 6 0 s s s s s s",
        {1: NOT_ALIVE.format(5), 2: NOT_ALIVE.format(6)},
    ),
    (
        "at 2 interrupt 0 / at 4 interrupt 0 / at 4 interrupt 0 / at 3 interrupt 0", 10, "s s 0 s 0 0 0 s s s s s s s",
        {4: LATER.format(2, 4)},
    ),
    ("at 11 interrupt 5 / at 0 interrupt 0", 0, "s s s s s s s s s s", {1: NOT_DUE.format(10), 2: HELD.format(1)}),
    # the line behind it is held back also if it is due just at the end
    ("at 11 interrupt 5 / at 10 interrupt 0", 0, "s s s s s s s s s s", {1: NOT_DUE.format(10), 2: HELD.format(1)}),
    ("at 11 interrupt 5 / at 11 interrupt 0", 0, "s s s s s s s s s s", {1: NOT_DUE.format(10), 2: NOT_DUE.format(10)}),
    ("at 0 interrupt 5 / at 12 interrupt 0 / at 13 interrupt 0", 0, "5 s s s s s s s s s s",
        {1: NOT_ALIVE.format(5), 2: NOT_DUE.format(11), 3: NOT_DUE.format(11)}),
]


def no_effect(outside, reasons):
    """Returns what standard error says of the lines of the outside text `due` that have no effect."""
    lines = outside.splitlines()
    return "".join(f'sts: due, line {number}: "{lines[number - 1]}" {why}\n' for number, why in reasons.items())


# Its flag is read once, at step 70,023 = 2 + 7 * (2 + 10,000 + 1), after more entries than a number of 16 bits has.
LATE = "func main 0\npush 7\ntimes 7\npush 10000\ntimes 10000\nnext\nnext\ninterrupted\nret\nend\n"
LATE_DUES = [(70023, 1), (70024, 0), (65536, 1)]


def dues_of_sts(sts):
    """Tries outside texts. One worker looks into them before each step."""
    for short, value, journal, reasons in DUES:
        outside = "".join(f"{it}\n" for it in short.split(" / "))
        right = 0, f"{BUDGETS.replace('2', '10')}success {value}\nsteps 10\n", no_effect(outside, reasons)
        words = ["run", "text", "--workers", "1", "--outside", "due"]
        sts.has(text=DIGITS, due=outside)
        yield f"{short!r} with no journal", sts.says(*words), right
        yield f"{short!r} with a journal", sts.says(*words, "--trace", "journal"), right
        events = "".join("step 0\n" if it == "s" else f"interrupt {it}\n" for it in journal.split())
        yield f"the journal of {short!r}", sts.read("journal"), events
    # a root that fails: events that come before its end, at its end, and never
    outside = "at 0 interrupt 5\nat 3 interrupt 0\nat 9 interrupt 0\n"
    reasons = {1: NOT_ALIVE.format(5), 2: NOT_ALIVE.format(0), 3: NOT_DUE.format(4)}
    right = 1, f"{BUDGETS}failed 8\nsteps 2\n", no_effect(outside, reasons)
    for more in ([], ["--trace", "journal"]):
        sts.has(text=FAILS, due=outside)
        yield f"events of a root that fails: {more}", sts.says("run", "text", "--workers", "1", "--outside", "due", *more), right
    for entries, value in LATE_DUES:
        sts.has(text=LATE, due=f"at {entries} interrupt 0\n")
        right = 0, f"{BUDGETS.replace('2', '70025')}success {value}\nsteps 70025\n", ""
        for more in ([], ["--trace", "journal"]):
            yield f"due at {entries}: {more}", sts.says("run", "text", "--workers", "1", "--outside", "due", *more), right


# Outside texts with a fault, and what is printed.
FAULTY = [
    ("at 01 expire 0\n", "error T2 line 1\n"),
    ("at 0 expire x\n", "error T2 line 1\n"),
    ("at 0 step 0\n", "error T1 line 1\n"),
    ("at 0  expire 0\n", "error T1 line 1\n"),
    ("at 0 expire 0 \n", "error T1 line 1\n"),
    ("step 0\n", "error T1 line 1\n"),
    ("at 0 expire 0\nat 0 expire 0", "error T3\n"),
    # the first fault counts
    ("at 0 expire 4294967295\nat 0 expire 4294967296\nstep 0\n", "error T2 line 2\n"),
    # there are at most 4,096 lines
    ("at 0 expire 0\n" * 4096 + "x", "error T3\n"),
    ("at 0 expire 0\n" * 4097, "error T1 line 4097\n"),
]


def outside_texts_of_sts(sts):
    """Tries outside texts with a fault, and one of the greatest length."""
    words = ["run", "text", "--workers", "1", "--outside", "due"]
    for text, printed in FAULTY:
        sts.has(text=SEVEN, due=text)
        yield f"an outside text, {text[:40]!r} ..", sts.says(*words), (3, printed, "")
    # a fault of the text comes before one of the outside text, and that before the verdict
    for text, status, printed in (("", 3, "error A9 C5 function 0 at 0\n"), (POPS, 3, "error T1 line 1\n")):
        sts.has(text=text, due="x\n")
        yield f"an outside text with a fault, and {text!r}", sts.says(*words), (status, printed, "")
    outside = "at 0 expire 0\n" * 4095 + "at 0 interrupt 4294967295\n"
    sts.has(text=SEVEN, due=outside)
    reasons = {**{number: NO_EXPIRY.format(0) for number in range(1, 4096)}, 4096: NOT_ALIVE.format(4294967295)}
    right = 0, f"{BUDGETS}success 7\nsteps 2\n", no_effect(outside, reasons)
    yield "4,096 outside lines", sts.says(*words, "--trace", "journal"), right
    journal = "expire 0\n" * 4095 + "interrupt 4294967295\nstep 0\nstep 0\n"
    yield "their journal", sts.read("journal") if "journal" in sts.names() else "", journal


# Each `close` comes while a subtask lives, since the `join` before it is interrupted, so it takes both its steps.  Once the two
# leaves have bound their key, all tasks, scopes and bindings count at once.
# A leaf has 5 steps.  A subtask has 1 for `open`, 1 and 5 for `fork`, 1 for `join`, 1 for `push`, 2 for `close` and 1 for
# `ret`, which are 12.  `main` has 1, twice 1 and 12, 1, 1, 2 and 1, which are 32.
ALL_AT_ONCE = "func leaf 0 / push 5 / bind 1 / unbind / push 7 / ret / end / " \
    "func kid 0 / open s1 awaitall / fork s1 leaf _ / join s1 - - intr / push 0 / close s1 / ret / intr: / push 1 / close s1 / ret / end / " \
    "func main 0 / open s0 awaitall / fork s0 kid _ / fork s0 kid _ / join s0 - - intr / push 0 / close s0 / ret / " \
    "intr: / push 1 / close s0 / ret / end"
# A text, the steps of a run in short (`0*3` is three steps of the root, `i0` an interrupt of it), the budgets of `main`, and
# the steps of the run and the most tasks, scopes and bindings that count at once in it.
COSTS = [
    # the two leaves bind their key; the root is interrupted, and all end, the root last
    (ALL_AT_ONCE, "0*3 1*2 2*2 3*2 4*2 i0 0*3 1*3 2*3 3*3 4*3 1*2 2*2 0*2", (32, 5, 3, 2), (32, 5, 3, 2)),
    # the instructions after `jz` are skipped
    ("func main 0 / push 0 / jz on / push 1 / pop / on: / push 7 / ret / end", "0*4", (6, 1, 0, 0), (4, 1, 0, 0)),
    ("func kid 0 / push 0 / ret / end / func main 0 / open s0 awaitall / push 0 / jz on / fork s0 kid _ / on: / join s0 - - intr / "
     "push 7 / close s0 / ret / intr: / push 0 / close s0 / ret / end", "0*7", (11, 2, 1, 0), (7, 1, 1, 0)),
    ("func main 0 / push 0 / jz on / open s0 awaitall / join s0 - - intr / close s0 / jmp on / intr: / close s0 / on: / push 7 / ret / end",
     "0*4", (9, 1, 1, 0), (4, 1, 0, 0)),
    ("func main 0 / push 0 / jz on / push 5 / bind 1 / unbind / on: / push 7 / ret / end", "0*4", (7, 1, 0, 1), (4, 1, 0, 0)),
]


def counted(view):
    """Returns how many tasks, scopes and bindings count in a full view: the tasks of scopes that aren't closed, and the root.

    A view shows what a task reads, whoever bound it: in COSTS no task reads what another one bound.
    """
    lines = [it.split() for it in view.splitlines()]
    scopes = [it[1] for it in lines if it[:1] == ["scope"] and it[5] != "closed"]
    tasks = [it for it in lines if it[:1] == ["task"] and it[3] in ["-", *scopes]]
    return len(tasks), len(scopes), sum(len(it) - 1 for it in lines if it[:1] == ["bound"])


def costs_of_runs(sts, look):
    """Tries budgets that are reached, and some that no run reaches."""
    for short, steps, budgets, run in COSTS:
        text = "".join(f"{it}\n" for it in short.split(" / "))
        trace = "".join(f"interrupt {it[1:]}\n" if it[0] == "i" else f"step {it[0]}\n" * int(it[2:]) for it in steps.split())
        sts.has(text=text, trace=trace)
        printed = sts.says("verify", "text")[1].splitlines()
        found = tuple(int(it.split()[2]) for it in printed if it.startswith("main "))
        yield f"the budgets of {short[:60]!r}", found, budgets
        views = look.says("view", "text", "trace", "--each", "--full")[1].split("\nafter ")
        peaks = [max(it) for it in zip(*map(counted, views))]
        ended = [it for it in views[-1].splitlines() if it.startswith(("success ", "steps "))]
        yield f"the costs of a run of {short[:60]!r}", (len(ended), ended[1:], peaks), (2, [f"steps {run[0]}"], list(run[1:]))


def large_runs_of_sts(sts):
    """Tries the most subtasks that a scope may have, in a text of the greatest length."""
    sts.has(text=WIDE + ";" * (MOST - len(WIDE) - 1) + "\n")
    for more in ([], ["--trace", "journal"]):
        yield f"a large run: {more}", sts.says("run", "text", "--workers", "4", *more, seconds=LARGE), (0, OF_WIDE, "")
    steps = sts.read("journal").count("step ") if "journal" in sts.names() else 0
    ended = sts.says("replay", "text", "journal", seconds=LARGE)
    yield "its journal", (steps, ended), (262191, (0, "success 65535\nsteps 262191\n", ""))


def dashed_names(sts, look):
    """Tries names that begin with `-`: only `-` itself, for `look`, is standard input."""
    names = {"-text": SEVEN, "--": SEVEN, "-e": SEVEN, "trace": TWICE}
    for name in ("-text", "--", "-e"):
        sts.has(**names)
        yield f"verify {name!r}", sts.says("verify", "--", name, given=POPS), (0, BUDGETS, "")
        yield f"plain {name!r}", sts.says("plain", "--", name, "trace", given=POPS), (0, "success 7\nsteps 2\n", "")
        yield f"look explain {name!r}", look.says("explain", "--", name, given=POPS), (0, "accepted\n", "")
        yield f"look explain {name!r} after a trace", look.says("explain", "--", name, "trace", given=POPS), (0, "success 7\n", "")
    sts.has(**{"-": POPS, "trace": TWICE})
    yield "a file that is called -", sts.says("verify", "--", "-", given=SEVEN), (4, "refused V1 in main at 0: pop\n", "")
    yield "look and a file that is called -", look.says("explain", "--", "-", given=SEVEN), (0, "accepted\n", "")


def files_of_sts(sts):
    run = ["run", "text", "--workers", "2"]
    both = [["plain", "text", "trace"], ["replay", "text", "trace"], [*run, "--outside", "trace"]]
    yield from files(sts, "sts", [["verify", "text"], ["list", "text"], run], both)


def files_of_look(look):
    yield from files(look, "look", [["explain", "text"], ["ends", "text"]], [[it, "text", "trace"] for it in ("view", "explain", "draw")])
    look.has()
    yield "no FILE, and a trace", (look.says("ends", "text", "--trace", "1", "made"), look.names()), (NO_FILE, [])
    yield from missing_ends(look)


def missing_ends(look):
    """Tries the trace of an end that isn't found: no file is made, and one that is there stays as it was."""
    look.has(text=SEVEN, kept="kept\n")
    for words in ([], ["--calls"], ["--sample", "3"]):
        for name in ("made", "kept"):
            status, printed, told = look.says("ends", "text", *words, "--trace", "9", name)
            yield f"no end 9, {words}, {name}", (status, printed.endswith("no end has number 9\n"), told), (5, True, "")
            yield f"the files after {words}, {name}", (look.names(), look.read("kept")), (["kept", "text"], "kept\n")
    yield "no end 9, and the text", (look.says("ends", "text", "--trace", "9", "text"), look.read("text")), (NO_FILE, SEVEN)


OF_STS = [words_of_sts, names_of_sts, outputs_of_sts, dues_of_sts, outside_texts_of_sts, large_runs_of_sts, files_of_sts]
OF_LOOK = [words_of_look, names_of_look, outputs_of_look, files_of_look]
OF_BOTH = [dashed_names, costs_of_runs]
PARTS = [it.__name__ for it in (*OF_STS, *OF_LOOK, *OF_BOTH)]


def tried(sts, look, parts):
    for given, tries in ([sts], OF_STS), ([look], OF_LOOK), ([sts, look], OF_BOTH):
        for it in tries:
            if it.__name__ in parts:
                yield from it(*given)


def main():
    both, parts = programs.taken(sys.argv[1:], "sts", "look")
    parts = tally.parts(parts, PARTS)
    with tempfile.TemporaryDirectory() as folder:
        return tally.equal(tried(*(Folder(it, folder) for it in both), parts))
