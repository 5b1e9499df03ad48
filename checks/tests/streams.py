"""Gives the programs readers that never end and writers that fail.  [PROGRAM [LOOK]|--unproved] [PART ..]

PROGRAM is `sts`, LOOK is `look`; each of their commands is tried. A PART is a function below, such as `unwritten`; all are
tried if none is named. Each run has 64 MiB of addresses and a minute. A text
without end is too long (`error A8`, status 3): the program reads one byte more than a text may have. It reads a trace, an
outside text or an input without end until memory runs out (`error memory`, status 6). An input that has nothing yet and
doesn't wait can't be read (`error file`, status 6). The status is 6, and the journal of
a run is whole, if standard output is full, closed or read by nobody; for help and mistakes that is standard error.
A program that was built without proofs needs more addresses: there each allocation has a bound instead.

Each set of the three standard streams may be closed at the start. Then the status is 6 if the program has to read or write
one of them, and otherwise all is as if none were closed. If the text and the events were read, the file of `--trace` is
whole. Otherwise it is as before.

A journal that can't be made or written is `error file`, status 6. If a run never begins, its journal is made and stays
empty, except if a file that is read first can't be read. A journal that is a file that the run reads, also by another path
or a link, is refused in the same way, and all files stay as they were. If standard error can't be written, the output and
the status of a failure are the same. Standard input is `-` for `look`. For `sts` at a terminal it says that it waits.

A search by `look ends` that takes longer than a second says on a terminal which ends it found, each once, and how many states
it has, at most once a second. It empties that line before an end, and when it is over. It says nothing if standard error is no
terminal. At Ctrl-C it ends within a second, by that signal. It has then printed nothing, and there is no file of a trace. After
`--seconds N` it prints what it has.
The last line is `N passed, M failed`, of runs.
"""
import contextlib
import fcntl
import itertools
import os
import pty
import re
import resource
import select
import shutil
import signal
import subprocess
import sys
import tempfile
import termios
import time

from checks import notation, programs, tally
from checks.programs import ROOT

SUM, TRACE, DEADLINE, DUE = (
    os.path.join(ROOT, "examples", name) for name in ("sum.sts", "sum.trace", "deadline.sts", "deadline.outside")
)
ADDRESSES, ALLOCATED, SECONDS = 64 << 20, 16, 60  # bytes, MiB, seconds
ENDS_SO_FAR = r"(?:\d+ after \d+ events: [^\r\n]*\r\n)+"  # at a terminal
TIMELY = (
    "N after N events: success N\na search by calls of N states found no other end; that there is none is not proved\n"
    "stopped at N states, not all schedules\n"
)
LONG = 3.5  # the seconds of a search that says more than once how far it is
TOO_LONG, NO_MEMORY, NO_FILE = ("error A8 line 0\n", 3), ("error memory\n", 6), ("error file\n", 6)
EXPLAINED_TOO_LONG = ("error A8\nthe text has more than 1048576 bytes\n", 3)
JSON_TOO_LONG = ('{"text_fault":{"fault":"A8","line":0},"version":1}\n', 3)
NO_MAIN = ("error A9 C5\nthe text must end with a function main 0, without needs\n", 3)
FAILED = ("", 6)
END = ("success 50\nsteps 24\n", 0)
RUN_OF_SUM = (
    "square steps 4\nsquare tasks 1\nsquare scopes 0\nsquare binds 0\n"
    "main steps 25\nmain tasks 4\nmain scopes 1\nmain binds 0\n" + END[0],
    0,
)
ENDS_OF_SUM = ("1 after 24 events: success 50\n49 states, all schedules\n", 0)
REFUSED = ("func main 0\nx:\njmp x\nend\n", ("refused V4 in main at 0: jmp L0\n", 4))
FAULTY = ("func main 0\npuhs 7\nret\nend\n", ("error A2 line 2\n", 3))
# a text with more states than any search finds in a few seconds: ten subtasks of three steps. The loop gives
# `main` more states than a row of a table of calls may have
MANY_STATES = "func kid 0\npush 1\ninterrupted\nadd\nret\nend\nfunc main 0\npush 10000\ntimes 10000\n" + (
    "push 0\npop\n" * 5
    + "next\nopen s0 all\n"
    + "fork s0 kid _\n" * 10
    + "join s0 bad - intr\npop\ntotal s0\nclose s0\nret\nbad:\nclose s0\nfail\nintr:\npush 0\nclose s0\nfail\nend\n"
)


# a refused text with as many states. If its first subtask is unavailable, it faults. No trace by calls leads there,
# since no end comes behind that
LATE_FAULT = "func one 0\npush 5\nret\nend\nfunc kid 0\npush 1\ninterrupted\nadd\nret\nend\nfunc main 0\nopen s0 any\nfork s0 one s1\nfork s0 one _\n" + (
    "join s0 bad - intr\npop\ncase s1 on on\nadd\nmore:\ninterrupted\npop\njmp more\non:\nclose s0\nopen s0 all\n"
    + "fork s0 kid _\n" * 10
    + "join s0 bad - intr\npop\ntotal s0\nclose s0\nret\nbad:\nclose s0\nfail\nintr:\npush 0\nclose s0\nfail\nend\n"
)
# texts with more ends than any search lists: thirty races, whose winners are summed up in a local, and the total of as many
# subtasks that a timeout may make unavailable. Each try of a search by calls of the first takes longer than the one before
ONE, ENDED = "func one 1\nload 0\nret\nend\nfunc main 0\n", "bad:\nclose s0\nfail\nintr:\npush 0\nclose s0\nfail\nend\n"
RACES = ONE + "push 0\nstore 0\n" + "".join(
    f"open s0 any\npush 0\nfork s0 one _\npush {1 << k}\nfork s0 one _\njoin s0 bad - intr\nload 0\nadd\nstore 0\nclose s0\n" for k in range(30)
) + "load 0\nret\n" + ENDED
TOTALS = "profile 2\n" + ONE + "open s0 awaitok timed\n" + "".join(f"push {1 << k}\nfork s0 one _\n" for k in range(30)) + (
    "join s0 bad late intr\ntotal s0\nclose s0\nret\nlate:\ntotal s0\nclose s0\nret\n" + ENDED
)
STOPPED = (["stopped at N states, not all schedules"], 5)
FAULT_SO_FAR = r"\r\x1b\[K\d+ after 9 events: fault Operand, task 0 in main, line 18: add\r\n"


def limited(closed=()):
    """Prepares a new process before it becomes the program: it limits addresses and closes these files."""

    def prepare():
        if "ASAN_OPTIONS" not in os.environ:
            resource.setrlimit(resource.RLIMIT_AS, (ADDRESSES, ADDRESSES))
        for file in closed:
            os.close(file)

    return prepare


def bound_allocations(programs):
    """Bounds each allocation if a program can't begin with few addresses, since it was built with AddressSanitizer."""
    for it in programs:
        ran = subprocess.run([it, "--help"], stdin=subprocess.DEVNULL, capture_output=True, preexec_fn=limited())
        if b"AddressSanitizer" in ran.stderr:
            os.environ["ASAN_OPTIONS"] = f"allocator_may_return_null=1:max_allocation_size_mb={ALLOCATED}"


def answer(program, words, given=None, **around):
    """The output and the status, or nothing if it doesn't end."""
    around = {"stderr": subprocess.DEVNULL, "preexec_fn": limited(), **around}
    status, printed = programs.says(program, *words, given=given, seconds=SECONDS, **around)
    return None if status == programs.NO_END else (printed, status)


@contextlib.contextmanager
def without_end(line):
    """A pipe that has this line for ever."""
    with subprocess.Popen(["yes", line], stdout=subprocess.PIPE) as endless:
        yield endless.stdout
        endless.stdout.close()


def looks(text, trace):
    """The commands of `look` on a text and a trace."""
    files = [text, trace]
    runs = [["view", *files], ["view", *files, "--each", "--full"], ["explain", *files], ["draw", *files], ["tell", *files]]
    return [*runs, ["explain", text], ["ends", text], ["ends", text, "--json"], ["ends", text, "--calls"]]


def too_long(words):
    """What a command of `look` answers to a text that is too long."""
    return JSON_TOO_LONG if "--json" in words else TOO_LONG if words[0] in ("view", "draw") else EXPLAINED_TOO_LONG


def unended(program, look):
    """Yields for each reader without end what it is, what is answered, and what is right."""
    workers = ["--workers", "2"]
    for file, line in (("/dev/zero", "push 7"), ("/dev/stdin", "push 7"), ("/dev/stdin", "func main 0"), ("/dev/stdin", "")):
        for words in (["verify", file], ["list", file], ["plain", file, TRACE], ["replay", file, TRACE], ["run", file, *workers]):
            with without_end(line) as given:
                yield f"{line!r} as {words}", answer(program, words, given), TOO_LONG
        for words in looks(file, TRACE):
            with without_end(line) as given:
                yield f"{line!r} as {words}", answer(look, words, given), too_long(words)
    for file, line in (("/dev/zero", "step 0"), ("/dev/stdin", "step 0")):
        for words in (it for it in looks(SUM, file) if file in it):
            with without_end(line) as given:
                yield f"{line!r} as {words}", answer(look, words, given), NO_MEMORY
    for file, line in (("/dev/zero", "step 0"), ("/dev/stdin", "step 0"), ("/dev/stdin", "at 0 interrupt 0")):
        for words in (["plain", SUM, file], ["replay", SUM, file], ["run", SUM, *workers, "--outside", file]):
            with without_end(line) as given:
                yield f"{line!r} as {words}", answer(program, words, given), NO_MEMORY
    for line in ("step 0", "%", "func main 0"):
        with without_end(line) as given:
            yield f"{line!r} as the input", answer(program, [], given), NO_MEMORY
    with open("/dev/zero", "rb") as given:
        yield "zeros as the input", answer(program, [], given), NO_MEMORY
    reader, writer = os.pipe()
    os.set_blocking(reader, False)
    with open(reader, "rb") as given:
        for name, words in (program, []), (look, ["explain", "-"]), (look, ["view", SUM, "-"]):
            yield f"an input that has nothing yet: {words}", answer(name, words, given), NO_FILE
    os.close(writer)


def broken(stream):
    """Yields the ways in which a stream fails, and what makes it so."""
    number = {"stdout": 1, "stderr": 2}[stream]
    with open("/dev/full", "wb") as full:
        yield "full", {stream: full}
    yield "closed", {stream: subprocess.DEVNULL, "preexec_fn": limited([number])}
    reader, writer = os.pipe()
    os.close(reader)
    with open(writer, "wb") as nobody:
        yield "read by nobody", {stream: nobody}


def unwritten(program, look, folder):
    """Yields the same for each stream that fails, and for what is left of a journal."""
    journal, workers = os.path.join(folder, "journal"), ["--workers", "2"]
    printing = [["verify", SUM], ["list", SUM], ["plain", SUM, TRACE], ["replay", SUM, TRACE], []]
    runs = [["run", SUM, *workers], ["run", DEADLINE, *workers, "--outside", DUE]]
    parts = [["view", SUM, TRACE, "--living"], ["draw", SUM, TRACE, "--events", "2..3"]]
    for what, around in broken("stdout"):
        for name, commands in (program, [*printing, *runs]), (look, [*looks(SUM, TRACE), *parts]):
            for words in commands:
                yield f"{words}, output {what}", answer(name, words, **around), FAILED
        yield f"a run, output {what}", answer(program, ["run", SUM, *workers, "--trace", journal], **around), FAILED
        yield f"its journal, output {what}", answer(program, ["replay", SUM, journal]), END
    for what, around in broken("stdout"):
        for words in (["--help"], ["view", "--help"], ["help"]):
            yield f"look {words}, output {what}", answer(look, words, **around), FAILED
    for what, around in broken("stderr"):
        for name, failing in (program, (["--help"], ["run", "--help"], ["plane"])), (look, (["veiw"],)):
            for words in failing:
                yield f"{words}, errors {what}", answer(name, words, **around), FAILED
        missing = os.path.join(folder, "missing")
        for name, words in (program, ["verify", missing]), (program, ["plain", SUM, missing]), (look, ["explain", missing]):
            yield f"{words}, errors {what}", answer(name, words, **around), NO_FILE
        yield f"a faulty trace, errors {what}", answer(program, ["plain", SUM, SUM], **around), ("error T1 line 1\n", 3)


def makers(program, look, made):
    """Returns the commands that make a file, and for each whether it reads the input. The program is the first word."""
    run, ends = ["--workers", "2", "--trace", made], ["--trace", "1", made]
    return [
        ([program, "run", SUM, *run], False),
        ([program, "run", "/dev/stdin", *run], True),
        ([program, "run", SUM, "--outside", "/dev/stdin", *run], True),
        *(([look, "ends", file, *ends], file != SUM) for file in (SUM, "/dev/stdin", "-")),
    ]


def closed(program, look, folder):
    """Yields the same for each set of streams that are closed at the start, and what the file of a trace has then."""
    made, nothing = os.path.join(folder, "made"), os.path.join(folder, "nothing")
    with open(made, "w"), open(nothing, "w"):
        pass
    reading = [[program, command, *files] for command, *files in (["verify", SUM], ["list", SUM], ["plain", SUM, TRACE], ["replay", SUM, TRACE])]
    reading += [[look, *words] for words in looks(SUM, TRACE)]
    for streams in (it for count in range(4) for it in itertools.combinations(range(3), count)):
        around = {"preexec_fn": limited(streams)}
        for (name, *words), is_reader in makers(program, look, made):
            what, file = f"{os.path.basename(name)} {words}, {streams} closed", nothing if "--outside" in words else SUM
            with open(made, "w") as before, open(file) as given:
                before.write("kept\n")
                before.flush()
                said, is_read = answer(name, words, given, **around), not (is_reader and 0 in streams)
            right = (RUN_OF_SUM if name == program else ENDS_OF_SUM) if is_read else NO_FILE
            yield what, said, FAILED if 1 in streams else right
            with open(made) as after:
                is_kept = after.read() == "kept\n"
            yield f"its file: {what}", answer(program, ["replay", SUM, made]) if is_read else is_kept, END if is_read else True
        for stream in streams:
            for (name, *words), is_reader in makers(program, look, f"/dev/{('stdin', 'stdout', 'stderr')[stream]}"):
                # (the input is empty, and a faulty text has no trace to write)
                right = NO_MAIN if name == look and is_reader and 0 not in streams else NO_FILE
                yield f"{words}, {streams} closed", answer(name, words, **around), FAILED if 1 in streams else right
        for name, *words in reading:
            yield f"{words}, {streams} closed", answer(name, words, **around), FAILED if 1 in streams else answer(name, words)
        with open(nothing) as given:
            right = NO_FILE if 0 in streams else ("error A9 C5 function 0 at 0\n", 3)
            yield f"the input, {streams} closed", answer(program, [], given, **around), FAILED if 1 in streams else right
        for name, words in (program, ["run", "--trace", made]), (look, ["ends", "--trace", "1", made]):
            yield f"{words}, {streams} closed", answer(name, words, **around), ("", 6 if 2 in streams else 2)


def journals(program, folder):
    """Yields the same for journals that can't be made or written, or have nothing."""
    journal, text, missing = (os.path.join(folder, name) for name in ("journal", "text", "missing"))
    for path in ("/dev/full", folder, os.path.join(missing, "journal"), ""):
        yield f"a journal at {path!r}", answer(program, ["run", SUM, "--workers", "2", "--trace", path]), NO_FILE
    for content, right in (REFUSED, FAULTY):
        with open(text, "w") as file, open(journal, "w") as old:
            file.write(content)
            old.write("step 0\n")
        yield f"a journal of {content!r}", answer(program, ["run", text, "--workers", "2", "--trace", journal]), right
        yield f"its size, of {content!r}", os.path.getsize(journal), 0
    os.remove(journal)
    for words in (["run", missing, "--workers", "2"], ["run", SUM, "--workers", "2", "--outside", missing]):
        yield f"a file that is missing: {words}", answer(program, [*words, "--trace", journal]), NO_FILE
        yield f"its journal: {words}", os.path.exists(journal), False


def overwriting(program, look, folder):
    """Yields the same for journals that are the text or the outside text by some name, and whether all files are as before.
    A trace that `look ends` writes may not be the text either."""
    room = os.path.join(folder, "room")
    os.mkdir(room)
    text, due = os.path.join(room, "text"), os.path.join(room, "due")
    for name, copied in ((text, DEADLINE), (due, DUE)):
        shutil.copy(copied, name)
        os.symlink(name, f"{name}.symbolic")
        os.link(name, f"{name}.hard")
    os.symlink(room, os.path.join(folder, "way"))
    before = contents(room)
    options = ["--workers", "2", "--outside", due, "--trace"]
    for name in (text, due):
        base = os.path.basename(name)
        others = (f"{room}/./{base}", f"{room}/../room/{base}", f"{folder}/way/{base}", os.path.relpath(name))
        for path in (name, f"{name}.symbolic", f"{name}.hard", *others):
            yield f"a journal at {path!r}", answer(program, ["run", text, *options, path]), NO_FILE
            yield f"all files after a journal at {path!r}", contents(room), before
            yield f"a trace at {path!r}", answer(look, ["ends", name, "--trace", "1", path]), NO_FILE
            yield f"all files after a trace at {path!r}", contents(room), before
    yield "a journal that is all", answer(program, ["run", text, "--workers", "2", "--outside", text, "--trace", text]), NO_FILE
    yield "all files after that", contents(room), before
    with open(text) as given:
        words = ["run", "/dev/stdin", *options, text]
        yield "a journal that is standard input", answer(program, words, given), NO_FILE
        yield "a trace that is standard input", answer(look, ["ends", "-", "--trace", "1", text], given), NO_FILE
    yield "all files after standard input", contents(room), before
    # A device has no bytes to lose, and another file may be replaced.
    words = ["run", SUM, "--workers", "2", "--outside", "/dev/null", "--trace"]
    for path in ("/dev/null", f"{text}.hard"):
        answer(program, [*words, path])
    yield "a journal at another file", answer(program, ["replay", SUM, text]), END
    with open(SUM) as given:
        answer(look, ["ends", "-", "--trace", "1", due], given)
    yield "a trace at another file", answer(program, ["replay", SUM, due]), END
    yield "a journal at a device", answer(program, [*words, "/dev/null"])[1], 0


def told(program, words, given=subprocess.DEVNULL, **around):
    """What is written to standard error."""
    # (root may read all files, but for this)
    plainly = ["setpriv", "--bounding-set=-dac_override,-dac_read_search"] if os.getuid() == 0 else []
    around = {"stdout": subprocess.DEVNULL, **around}
    ran = subprocess.run([*plainly, program, *words], stdin=given, stderr=subprocess.PIPE, timeout=SECONDS, **around)
    return ran.stderr.decode(errors="replace")


# Runs that have no end. For each the text, the trace in short, the number of the first event that did nothing, and why.
FAULTS = "func main 0\npop\nret\nend\n"
LATE_FORK = "func kid 0\npush 1\nret\nend\nfunc main 0\nopen s0 any\nfork s0 kid _\nfork s0 kid _\njoin s0 x - x\nx:\nclose s0\nret\nend\n"
IDLE = [
    (None, "99*1", 1, '"step 99" did nothing, since there is no task 99 then'),
    (None, "0*2 1*1 0*1 1*1", 3, '"step 1" did nothing, since there is no task 1 then'),
    (None, "0*8 0*1", 8, '"step 0" did nothing, since task 0 waits then'),
    (None, "0*7 2*5", 12, '"step 2" did nothing, since task 2 has ended then'),
    (None, "0*7 2*4 i2", 12, '"interrupt 2" did nothing, since task 2 has ended then'),
    (None, "0*1 i0 i1", 3, '"interrupt 1" did nothing, since there is no task 1 then'),
    (None, "x0 0*1", 1, '"expire 0" did nothing, since there is no scope 0 then'),
    (None, "0*1 x0", 2, '"expire 0" did nothing, since scope 0 can\'t expire then'),
    (LATE_FORK, "0*2 1*2 0*1 2*1", 6, '"step 2" did nothing, since task 2 never starts then'),
    (FAULTS, "1*1 0*1 2*1", 1, '"step 1" did nothing, since there is no task 1 then'),
    # no event after a fault is told, and none of a run that counts all events
    (FAULTS, "0*1 2*1", None, ""),
    (None, "0*7 1*1", None, ""),
]


def idle(program, look, folder):
    """Yields the same for the first event of a trace that did nothing."""
    text, short, full = (os.path.join(folder, name) for name in ("idle.sts", "idle.short", "idle.trace"))
    for content, events, number, why in IDLE:
        for path, written in (text, content), (short, events), (full, notation.events(events)):
            if written is not None:
                with open(path, "w") as file:
                    file.write(written)
        given, line = SUM if content is None else text, f"{{}}, {{}} {number}: {why}\n" if number else ""
        for words in ["plain", given, full], ["replay", given, full]:
            if words[0] == "plain" or content is None:  # (`replay` refuses the other texts)
                yield f"idle {words} {events}", told(program, words), line and "sts: " + line.format(full, "line")
        for trace in short, full:
            for words in ["view", given, trace], ["explain", given, trace]:
                yield f"idle {words} {events}", told(look, words), line and "look: " + line.format(trace, "event")
            for words in ["view", given, trace, "--each"], ["tell", given, trace], ["draw", given, trace]:
                yield f"idle {words} {events}", told(look, words), ""


def unwritten_reasons(program, look):
    """Yields the same for the line that says why standard output can't be written."""
    why = {"full": "no space is left", "closed": "the system reports an error", "read by nobody": None}
    for what, around in broken("stdout"):
        line = why[what] and f"cannot write standard output: {why[what]}\n"
        for words in (["list", SUM], ["plain", SUM, TRACE], ["run", SUM, "--workers", "2"]):
            yield f"why {words}, output {what}", told(program, words, **around), line and f"sts: {line}" or ""
        for words in (["view", SUM, TRACE], ["ends", SUM], ["help"]):
            yield f"why {words}, output {what}", told(look, words, **around), line and f"look: {line}" or ""


def reasons(program, look, folder):
    """Yields the same for the line that says why, and for standard input that a person or `-` gives."""
    names = "missing", "around", "bad", "text", "byte", "empty", "cut", "own", "long", "many", "windows", "short", "due"
    missing, around, bad, text, byte, empty, cut, own, long, many, windows, short, due = (os.path.join(folder, name) for name in names)
    wrong_byte = "func main 0\n\tpush \x7f7\nret\nend\n"
    functions = "".join(f"func f{number} 0\npush 1\nret\nend\n" for number in range(64)) + "func main 0\npush 1\nret\nend\n"
    for path, content in (
        (bad, "step 0\n step\n"), (text, FAULTY[0]), (byte, wrong_byte), (empty, ""), (cut, "step 0"), (own, ""),
        (long, ";" * 1_048_577), (many, functions), (windows, "step 0\r\n"), (short, "step 0\n0*6 1*4\n"), (due, "at 0 interrupt 0\r\n"),
    ):
        with open(path, "w", newline="") as file:
            file.write(content)
    os.symlink(around, around)
    os.chmod(own, 0)
    rows = [
        (["verify", missing], f"cannot read {missing}: there is no such file"),
        (["verify", folder], f"cannot read {folder}: it is a directory"),
        (["plain", SUM, folder], f"cannot read {folder}: it is a directory"),
        (["verify", os.path.join(SUM, "x")], f"cannot read {SUM}/x: a part of its path is no directory"),
        (["verify", "-"], "cannot read -: there is no such file (standard input is /dev/stdin)"),
        (["verify", around], f"cannot read {around}: the system reports an error"),
        (["verify", own], f"cannot read {own}: permission is denied"),
        (["run", SUM, "--workers", "2", "--trace", folder], f"cannot write {folder}: it is a directory"),
        (["run", SUM, "--workers", "2", "--trace", "/dev/full"], "cannot write /dev/full: no space is left"),
        (["run", SUM, "--workers", "2", "--outside", DUE, "--trace", "/dev/full"], "cannot write /dev/full: no space is left"),
        (["run", SUM, "--workers", "2", "--trace", own], f"cannot write {own}: permission is denied"),
        (["run", SUM, "--workers", "2", "--trace", SUM], f"cannot write {SUM}: this run reads that file"),
        (["verify", text], f'{text}, line 2: "puhs 7"; ./look explain FILE says more'),
        (["verify", byte], f'{byte}, line 2: "?push ?7"; ./look explain FILE says more'),
        (["verify", empty], f"{empty}: the text must end with a function main 0, without needs; ./look explain FILE says more"),
        (["verify", long], f"{long}: the text has more than 1048576 bytes; ./look explain FILE says more"),
        (["verify", many], f'{many}, line 2: "push 1": the text has more than 64 functions; ./look explain FILE says more'),
        (["plain", text, TRACE], f'{text}, line 2: "puhs 7"; ./look explain FILE says more'),
        (["replay", text, bad], f'{text}, line 2: "puhs 7"; ./look explain FILE says more'),
        (["list", text], f'{text}, line 2: "puhs 7"; ./look explain FILE says more'),
        (["run", text, "--workers", "2"], f'{text}, line 2: "puhs 7"; ./look explain FILE says more'),
        (["run", text, "--workers", "2", "--outside", bad], f'{text}, line 2: "puhs 7"; ./look explain FILE says more'),
        (["plain", SUM, windows], f'{windows}, line 1: "step 0?": a carriage return comes before its newline; ./look explain FILE TRACE says more'),
        (["plain", SUM, short], f'{short}, line 2: "0*6 1*4": checks/write_trace.py writes short traces in full; ./look explain FILE TRACE says more'),
        (["run", SUM, "--workers", "2", "--outside", due], f'{due}, line 1: "at 0 interrupt 0?": a carriage return comes before its newline; docs/LANGUAGE.md#outside-events says more'),
        (["plain", SUM, bad], f'{bad}, line 2: " step"; ./look explain FILE TRACE says more'),
        (["plain", SUM, cut], f"{cut}: no newline ends its last line; ./look explain FILE TRACE says more"),
        (["run", SUM, "--workers", "2", "--outside", bad], f'{bad}, line 1: "step 0"; docs/LANGUAGE.md#outside-events says more'),
        (["run", SUM, "--workers", "2", "--outside", cut], f"{cut}: no newline ends its last line; docs/LANGUAGE.md#outside-events says more"),
    ]
    for words, line in rows:
        yield f"why {words}", told(program, words), f"sts: {line}\n"
    for words, line in (
        (["view", missing, TRACE], f"cannot read {missing}: there is no such file"),
        (["view", SUM, bad], f'{bad}, line 2: " step"; ./look explain FILE TRACE says more'),
        (["draw", SUM, bad], f'{bad}, line 2: " step"; ./look explain FILE TRACE says more'),
        (["view", text, TRACE], f'{text}, line 2: "puhs 7"; ./look explain FILE says more'),
        (["view", "--json", text, bad], f'{text}, line 2: "puhs 7"; ./look explain FILE says more'),
        (["draw", text, TRACE], f'{text}, line 2: "puhs 7"; ./look explain FILE says more'),
        (["tell", "--json", text, TRACE], f'{text}, line 2: "puhs 7"; ./look explain FILE says more'),
        (["ends", SUM, "--trace", "1", "/dev/full"], "cannot write /dev/full: no space is left"),
    ):
        yield f"why by look {words}", told(look, words), f"look: {line}\n"
    yield from shown(program, look, os.path.join(folder, "shown"))
    yield from joined(program, os.path.join(folder, "joined"))
    yield from idle(program, look, folder)
    yield from unwritten_reasons(program, look)
    for words in (["verify", SUM], ["plain", SUM, TRACE]):
        yield f"nothing of {words}", told(program, words), ""
    for words in (["explain", "-"], ["view", "-", TRACE], ["tell", "-", TRACE], ["explain", "-", TRACE]):
        with open(SUM) as given:
            yield f"{words}", answer(look, words, given), answer(look, [SUM if it == "-" else it for it in words])
    with open(SUM) as given:
        yield "the title of a picture of standard input", f"<title>-, {TRACE}: " in str(answer(look, ["draw", "-", TRACE], given)), True
    with open(TRACE) as given:
        yield "a trace at -", answer(look, ["view", SUM, "-"], given), answer(look, ["view", SUM, TRACE])
    for words in (["--help"], ["help"], ["draw", "--help"]):
        printed, status = answer(look, words)
        yield f"look {words}", (status, "Usage: " in printed, told(look, words)), (0, True, "")
    yield "a terminal", at_terminal(program, []), ("sts: waits for a text, a line % and a trace on standard input", 5)
    yield "a terminal and a file", at_terminal(program, ["plain", SUM, TRACE]), ("", 0)
    yield "a terminal and help", at_terminal(program, ["help"]), (told(program, ["help"]).split(";")[0], 0)


def shown(program, look, file):
    """Yields the same for bytes of a line that are no printable ASCII: each is shown as `?`, by both programs. A tab shown as a
    space would make a wrong line look right."""
    for byte in (b"\t", b"\x01", b"\r", b"\x7f", b"\x80", b"\xe9", b"\xff"):
        with open(file, "wb") as trace:
            trace.write(b"step 0\nstep" + byte + b"0\n")
        line = f'{file}, line 2: "step?0"'
        for name, words in ("sts", ["plain", SUM, file]), ("sts", ["replay", SUM, file]), ("look", ["view", SUM, file]), ("look", ["draw", SUM, file]):
            says = told(program if name == "sts" else look, words)
            yield f"{byte} by {words}", says, f"{name}: {line}; ./look explain FILE TRACE says more\n"
        words = ["run", SUM, "--workers", "2", "--outside", file]
        with open(file, "wb") as outside:
            outside.write(b"at 0 expire 0\nat 0 expire" + byte + b"0\n")
        yield f"{byte} by {words}", told(program, words), f'sts: {file}, line 2: "at 0 expire?0"; docs/LANGUAGE.md#outside-events says more\n'
    with open(file, "wb") as text:
        text.write(b"func main 0\n\tpush\tx\nret\nend\n")
    for name, words in ("sts", ["verify", file]), ("look", ["view", file, TRACE]):
        line = f'{name}: {file}, line 2: "?push?x"; ./look explain FILE says more\n'
        yield f"tabs by {words}", told(program if name == "sts" else look, words), line


def joined(program, file):
    """Yields the same for a text and a trace on the input, with a fault of either."""
    good, bad = "func main 0\nret\nend\n", "step 0\n step\n"
    for given, line in (
        (f"{FAULTY[0]}%\n{bad}", 'the text, line 2: "puhs 7"; ./look explain FILE says more'),
        (f"{good}%\n{bad}", 'the trace, line 2: " step"; ./look explain FILE TRACE says more'),
    ):
        with open(file, "w") as both:
            both.write(given)
        with open(file) as both:
            yield f"why {given!r}", told(program, [], both), f"sts: {line}\n"


def at_terminal(program, words):
    """Returns what a program that reads a terminal says first, up to a semicolon, and its status at the terminal's end."""
    ours, its = pty.openpty()
    os.write(ours, b"func main 0\nret\nend\n\x04\x04")
    try:
        ran = subprocess.run([program, *words], stdin=its, capture_output=True, timeout=SECONDS)
        return ran.stderr.decode().split(";")[0], ran.returncode
    finally:
        os.close(ours)
        os.close(its)


def at_own_terminal(its):
    """Prepares a new process before it becomes the program: this terminal is its own, and sends it the signal of Ctrl-C.
    A script that was started in the background ignores that signal, and so would the program."""

    def prepare():
        signal.signal(signal.SIGINT, signal.SIG_DFL)
        os.setsid()
        fcntl.ioctl(its, termios.TIOCSCTTY, 0)

    return prepare


def heard(ours, seconds, word):
    """Returns what comes to a terminal, up to the first line with this word."""
    said, end = b"", time.monotonic() + seconds
    while word.encode() not in said and time.monotonic() < end:
        if select.select([ours], [], [], end - time.monotonic())[0]:
            try:
                said += os.read(ours, 1024)
            except OSError:  # (the program has ended)
                break
    return said.decode(errors="replace")


def stopped(look, words, word="states", form=f"{ENDS_SO_FAR}\r\\d+ states"):
    """Starts a search at a terminal and stops it by Ctrl-C once it has said a word. Returns whether it said that in this form, how it
    ended and what it printed, and whether it ended within a second."""
    ours, its = pty.openpty()
    begun = subprocess.Popen([look, *words], stdin=subprocess.DEVNULL, stdout=subprocess.PIPE, stderr=its, preexec_fn=at_own_terminal(its))
    os.close(its)
    try:
        said, pressed = heard(ours, SECONDS, word), time.monotonic()
        os.write(ours, b"\x03")
        printed, _ = begun.communicate(timeout=SECONDS)
        return bool(re.fullmatch(form, said)) or said, (begun.returncode, printed), time.monotonic() - pressed < 1
    except subprocess.TimeoutExpired:
        return said, "no end", False
    finally:
        os.close(ours)
        begun.kill()
        begun.communicate()


def searching(look, folder):
    """Yields the same for a search that takes long, and for a short one."""
    text, trace = os.path.join(folder, "text"), os.path.join(folder, "trace")
    with open(text, "w") as file:
        file.write(MANY_STATES)
    for more in ([], ["--trace", "1", trace]):
        words = ["ends", text, "--most", "100000000", *more]
        yield f"Ctrl-C: {words}", stopped(look, words), (True, (-signal.SIGINT, b""), True)
    yield "the trace after Ctrl-C", os.path.exists(trace), False
    yield "a fault before Ctrl-C", late_fault(look, f"{text}.late"), (True, (-signal.SIGINT, b""), True)
    yield from timely(look, text)
    said, answered, seconds = searched(look, ["ends", SUM])
    yield "a short search at a terminal", answered, answer(look, ["ends", SUM])
    yield "what it says", said, "" if seconds < 1 else said
    yield from progress(look, text, os.path.join(folder, "errors"))


def late_fault(look, text):
    """Returns the same of a search whose fault only the search over all schedules finds."""
    with open(text, "w") as file:
        file.write(LATE_FAULT)
    return stopped(look, ["ends", text, "--most", "100000000"], "line 18: add", f"(?:{ENDS_SO_FAR})?(?:\r\\d+ states)+{FAULT_SO_FAR}")


def timely(look, text):
    """Yields the same for a search that stops after a second: it has the ends that it found by calls, and their traces."""
    printed, status = answer(look, ["ends", text, "--most", "100000000", "--seconds", "1"], preexec_fn=None)
    yield "the ends after a second", (re.sub(r"\d+", "N", printed), status), (TIMELY, 5)
    traced = subprocess.run([look, "ends", text, "--seconds", "1", "--trace", "1", "-"], stdin=subprocess.DEVNULL, capture_output=True)
    yield "the lines beside a trace", (re.sub(r"\d+", "N", traced.stderr.decode()), traced.returncode), (TIMELY, 5)
    with open(f"{text}.trace", "wb") as file:
        file.write(traced.stdout)
    yield "the run of that trace", answer(look, ["explain", text, f"{text}.trace"])[1], 0
    for name, endless in (("races", RACES), ("totals", TOTALS)):
        with open(f"{text}.{name}", "w") as file:
            file.write(endless)
        printed, status = answer(look, ["ends", f"{text}.{name}", "--most", "100000000", "--seconds", "2"], preexec_fn=None)
        yield f"{name} after two seconds", (re.sub(r"\d+", "N", printed).splitlines()[-1:], status), STOPPED


def searched(look, words):
    """Returns what a search says at a terminal, its output and status, and how many seconds it took."""
    ours, its = pty.openpty()
    try:
        begun, said = time.monotonic(), b""
        answered = answer(look, words, stderr=its, preexec_fn=None)
        seconds = time.monotonic() - begun
        while select.select([ours], [], [], 0)[0]:
            said += os.read(ours, 1024)
        return said.decode(errors="replace"), answered, seconds
    finally:
        os.close(ours)
        os.close(its)


def progress(look, text, errors):
    """Yields the same for a search of some seconds that ends since it has as many states as it may keep."""
    most, seconds, states = 1024, 0, []
    while seconds < LONG or (len(states) < 2 and seconds < 4 * LONG):  # (a machine that is busy may begin late)
        most = int(most * min(16, max(1.5, 1.3 * LONG / max(seconds, 0.001))))
        words = ["ends", text, "--most", str(most)]
        said, (printed, status), seconds = searched(look, words)
        states = [int(it) for it in re.findall(r"\d+(?= states)", said)]
    yield "a long search at a terminal", bool(re.fullmatch(f"{ENDS_SO_FAR}(\r\\d+ states)+\r\x1b\\[K", said)) or said, True
    yield "its reports: from second to second there are more states", len(states) > 1 and states == sorted(set(states)) or states, True
    yield "its reports: at most one a second", len(states) <= seconds or (states, seconds), True
    end = re.fullmatch(r"(?:.*\n)*stopped at (\d+) states, not all schedules\n", printed)
    yield "its end", (end is not None and states[-1:] <= [int(end[1])] or (states, printed), status), (True, 5)
    with open(errors, "w") as file:
        yield "a long search with no terminal", answer(look, words, stderr=file, preexec_fn=None), (printed, status)
    yield "what it says to a file", os.path.getsize(errors), 0


def contents(folder):
    """Returns the bytes of each file of a folder."""
    found = {}
    for name in os.listdir(folder):
        with open(os.path.join(folder, name), "rb") as file:
            found[name] = file.read()
    return found


# The trials of the programs. Each function yields what was tried, its result, and the right result.
PARTS = {
    "unended": lambda program, look, folder: unended(program, look),
    "unwritten": unwritten,
    "closed": closed,
    "journals": lambda program, look, folder: journals(program, folder),
    "overwriting": overwriting,
    "reasons": reasons,
    "searching": lambda program, look, folder: searching(look, folder),
}


def main():
    (program, look), parts = programs.taken(sys.argv[1:], "sts", "look")
    parts = tally.parts(parts, PARTS)
    bound_allocations([program, look])
    with tempfile.TemporaryDirectory() as folder:
        return tally.equal(itertools.chain.from_iterable(PARTS[it](program, look, folder) for it in parts))
