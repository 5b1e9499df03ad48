"""Refuses the requests that the programs make to the system, one at a time.  [PROGRAM [LOOK]|--unproved] [PART ..]

PROGRAM is `sts`, LOOK is `look`. A PART is a function below, such as `threads_of_sts`; all are tried if none is named.
Each case is a command of one of them, with the answer that its rules give.
In `requests_of_sts` and `requests_of_look`, for n = 1, 2, .. until nothing is refused any more:
- the nth request for memory is refused, or that and all later ones: the answer is `error memory` alone with status
  6, or the right one;
- the nth read fails: `error file` alone with status 6. If it failed for lack of memory, `error memory`, and standard error
  says that. If a signal came, the read is tried again, and the answer is the right one;
- the nth write fails: a beginning of the right answer with status 6. If it was a write of the journal, `error file` alone.
  If it was a line on standard error that says why a text or an outside text is refused, or which lines of the outside text
  had no effect, the right answer.
The right answer of `look draw` is what it draws if nothing is refused: another script compares that.
Then all reads and writes take one byte at a time. And the output is full, closed, or read by nobody: status 6.
In `threads_of_sts` the start of each worker is refused in turn. Then a run by workers says `error threads`. It may also say
this if the refused memory was for such a start, and never otherwise. It starts as many workers as it is asked for, with a
journal and without. Where one isn't started, the others stop: in a program of 480,052 steps this takes less than half the
processor time of a whole run.
In `single_calls`, calls that the programs don't make, or make only once, are tried with refused memory, by the part `calls`
of the program `tests_rows`, which prints what each answers:
- each call that leads to the one that is tried, and this one, finds no memory in turn; otherwise the answer is right;
- `verify` gives a program back if memory runs out, and a machine is as it was before such an event. The same program, or
  the same event, then gives the right answer;
- between the start of a book and the end of a whole run there is no request for memory. `run_alone` makes as many as
  `prepare` alone, so there is none between `prepare` and the end of a whole run.
refuse.c makes the refusals. A C compiler makes a library of it, which is loaded before the program as it was built. If
there is no compiler, or the library can't be loaded, the script says that, and the status is 1. It refuses no memory to the
slow program that `rt try` builds, since AddressSanitizer replaces the requests: there only `threads_of_sts` works.
The last line is `N passed, M failed`, of runs.
"""
import collections
import concurrent.futures
import itertools
import os
import shutil
import subprocess
import sys
import tempfile
import threading

from checks import notation, programs
from checks.tally import Tally, parts

SECONDS, NO_END = 120, "no end"  # how long a run may take, and the status of one that takes longer: it is never right
NO_MEMORY, NO_FILE, NO_THREADS = (b"error memory\n", 6), (b"error file\n", 6), (b"error threads\n", 6)

# `others` are further right answers, for a run that takes other steps in another order of its tasks
Case = collections.namedtuple("Case", "name words text trace answer status others", defaults=[()])


def right_answers(case):
    """What a case may answer if nothing is refused."""
    return {(it, case.status) for it in (case.answer, *case.others)}



def lines(short):
    """A text, a trace or an answer of lines, written with ' / ' between them."""
    return "".join(f"{it}\n" for it in short.split(" / ")).encode()


def events(short):
    """A trace that is written short."""
    return notation.events(short).encode()


SEVEN = "func main 0 / push 7 / ret / end"
FAILS = "bad: / close s0 / fail / intr: / push 0 / close s0 / fail / end"
WORK = (
    "func work 1 / load 0 / push 2 / mul / ret / end / func main 0 / open s0 all / push 20 / fork s0 work s1 / push 1 / fork s0 work s2 / "
    f"join s0 bad - intr / pop / get s1 / get s2 / add / close s0 / ret / {FAILS}"
)
KID = "func kid 0 / push 0 / ret / end / "
TIMED = KID + (
    "func main 0 / open s0 awaitall timed / fork s0 kid _ / join s0 - late intr / close s0 / push 1 / ret / late: / close s0 / push 2 / ret / "
    "intr: / push 0 / close s0 / fail / end"
)
MIDDLE = (
    "func leaf 0 / interrupted / jz calm / push 1 / push 1 / ret / calm: / push 0 / ret / end / func boom 0 / push 8 / fail / end / "
    "func mid 0 / open s1 awaitall / fork s1 leaf _ / join s1 - - intr / close s1 / push 1 / ret / intr: / cancelled s1 / close s1 / ret / end / "
    f"func main 0 / open s0 awaitok / fork s0 mid _ / fork s0 boom _ / join s0 bad - intr / close s0 / push 0 / ret / {FAILS}"
)
MANY = KID + (
    "func main 0 / push 200 / times 200 / open s0 awaitall / fork s0 kid _ / join s0 - - intr / close s0 / jmp go / intr: / close s0 / "
    "go: / next / push 5 / ret / end"
)
BOUND = (
    "func kid 0 needs 2 / read 2 / ret / end / func main 0 / push 6 / bind 2 / open s0 any / fork s0 kid _ / join s0 bad - intr / close s0 / "
    "unbind / ret / bad: / close s0 / unbind / fail / intr: / push 0 / close s0 / unbind / fail / end"
)
RUNS = [
    ("a constant", SEVEN, "0*2", "success 7 / steps 2", 0),
    ("two subtasks", WORK, "0*5 1*4 2*4 0*7", "success 42 / steps 20", 0),
    ("a timeout", TIMED, "0*2 1*2 x0 0*4", "success 2 / steps 8", 0),
    ("a failure", MIDDLE, "0*3 1*3 2*2 3*1 1*3 3*3 1*2 0*3", "failed 8 / steps 19", 1),
    ("many scopes", MANY, "0*2 " + " ".join(f"0*2 {task}*2 0*4" for task in range(1, 201)) + " 0*2", "success 5 / steps 1604", 0),
    ("a binding", BOUND, "0*4 1*2 0*4", "success 6 / steps 10", 0),
]
REFUSED_TEXTS = [
    ("a way back", "func main 0 / x: / jmp x / end", "refused V4 in main at 0: jmp L0", 4),
    ("an unknown word", "func main 0 / puhs 7 / ret / end", "error A2 line 2", 3),
]
# for each function its name, and the most steps, tasks, scopes and bindings; and how the root ends with no event from outside
ROWS = {
    "a constant": ("main 2 1 0 0", "success 7"),
    "two subtasks": ("work 4 1 0 0 / main 21 3 1 0", "success 42"),
    "a timeout": ("kid 2 1 0 0 / main 9 2 1 0", "success 1"),
    "a failure": ("leaf 5 1 0 0 / boom 2 1 0 0 / mid 12 2 1 0 / main 22 4 2 0", "failed 8"),
    "many scopes": ("kid 2 1 0 0 / main 1804 2 1 0", "success 5"),
    "a binding": ("kid 2 1 0 0 / main 12 2 1 1", "success 6"),
}
# no task of a text that is run with these has the first number, and no scope the second: they change nothing
DUES = "at 0 interrupt 7777 / at 3 expire 7777"
# How a run by workers ends, and its steps. Their number is the same in any order of the tasks, except for "a failure". There `main`
# takes 5 steps and 1 or 2 of its `close`, `boom` 2, `mid` 5 and 1 or 2 of its `close`, and the leaf 4 or 5.
ENDS = {
    "a constant": ("success 7", [2]),
    "two subtasks": ("success 42", [20]),
    "a timeout": ("success 1", [8]),
    "a failure": ("failed 8", range(18, 22)),
    "many scopes": ("success 5", [1604]),
    "a binding": ("success 6", [10]),
}
# What `look` says after these events of "a timeout". Its subtask is at its `ret` when the time is up.
SEEN = "0*2 1*1 x0"
EXPIRED = "task 1 under 0 in kid at 1, line 3 ready interrupted"
SCOPE = "scope 0 of 0 awaitall opened timed"
VIEWS = [
    ([], f"running / steps 3 / task 0 under - in main at 2, line 8 ready / {EXPIRED} / {SCOPE} cancelled expired"),
    (
        ["--full"],
        "running / steps 3 / task 0 under - in main at 2, line 8 ready /   operands /   locals /   bound / "
        f"{EXPIRED} /   operands 0 /   locals /   bound / {SCOPE} cancelled expired",
    ),
    (
        ["--each"],
        "running / steps 0 / task 0 under - in main at 0, line 6 ready / "
        f"after 1 step 0 / running / steps 1 / task 0 under - in main at 1, line 7 ready / {SCOPE} may-expire / "
        "after 2 step 0 / running / steps 2 / task 0 under - in main at 2, line 8 waits join 0 / task 1 under 0 in kid at 0, line 2 ready / "
        f"{SCOPE} may-expire / "
        "after 3 step 1 / running / steps 3 / task 0 under - in main at 2, line 8 waits join 0 / task 1 under 0 in kid at 1, line 3 ready / "
        f"{SCOPE} may-expire / "
        f"after 4 expire 0 / running / steps 3 / task 0 under - in main at 2, line 8 ready / {EXPIRED} / {SCOPE} cancelled expired",
    ),
    (
        ["--living"],
        f"running / steps 3 / task 0 under - in main at 2, line 8 ready / {EXPIRED} / {SCOPE} cancelled expired / "
        "not shown: 0 tasks that don't live, 0 closed scopes",
    ),
]
TOLD = "running / task 0 in main, line 8: join s0 - late intr (ready) / task 1 in kid, line 3: ret (ready)"
EXPLAINED = [
    ("an accepted text", TIMED, "accepted", 0),
    (
        "two ways that differ",
        "func main 0 / push 1 / jz x / push 2 / x: / push 3 / ret / end",
        "refused V7 in main, line 6: push 3 / two ways meet here, or a loop turns, and differ: make alike what is listed, or end one way by ret / "
        "operands: 0 on the way from line 3 (jumps: it was 0); 1 on the way from line 4",
        4,
    ),
    (
        "the name of a line",
        "func main 0 / open s0 awaitall / close s0 ;= Orders.java:20 / push 1 / ret / end",
        "refused V12 in main, line 3: close s0 (Orders.java:20) / join this scope before you close it",
        4,
    ),
    (
        "too many steps",
        "func main 0 / push 499 / times 499 / push 2001 / times 2001 / next / next / push 0 / push 0 / ret / end",
        "refused V17 in main, at its end / some path takes more than 1000000 steps: lower a bound of times, or fork fewer subtasks / "
        "1000001 steps on a path that ends here, line 10: ret / adds 1, line 2: push 499 / adds 1, line 3: times 499 / "
        "adds 499, line 4: push 2001 / adds 499, line 5: times 2001 / adds 998499, line 6: next / adds 499, line 7: next / "
        "adds 1, line 8: push 0 / adds 1, line 9: push 0 / adds 1, its last step",
        4,
    ),
    (
        "too many steps after other functions",  # (their budgets are found first)
        f"{MIDDLE.partition('func main')[0]}"
        "func main 0 / push 499 / times 499 / push 2001 / times 2001 / next / next / push 0 / push 0 / ret / end",
        "refused V17 in main, at its end / some path takes more than 1000000 steps: lower a bound of times, or fork fewer subtasks / "
        "1000001 steps on a path that ends here, line 36: ret / adds 1, line 28: push 499 / adds 1, line 29: times 499 / "
        "adds 499, line 30: push 2001 / adds 499, line 31: times 2001 / adds 998499, line 32: next / adds 499, line 33: next / "
        "adds 1, line 34: push 0 / adds 1, line 35: push 0 / adds 1, its last step",
        4,
    ),
    (
        "a word that is missing",
        "func main 0 / push 1 / case s1 yes / end",
        "error A4, line 3: case s1 yes / an operand is missing, extra, misspelled or of the wrong kind / "
        "at case s1 yes []: expected the label for failed",
        3,
    ),
]
# `look ends` of a text with one end, and `look cases` of one case
ENDS_OF_SEVEN = "1 after 2 events: success 7 / 3 states, all schedules"
JSON_OF_SEVEN = (
    '{"after":2,"end":1,"run":{"name":"seven","outcome":"success","value":7},"version":1} / '
    '{"all_schedules":true,"by_calls":null,"no_end":null,"refused":false,"states":3,"version":1}'
)
CALLING = "func kid 1 / load 0 / fail / end / func main 0 / open s0 awaitall / push -7 / fork s0 kid _ / join s0 - - intr / close s0 / push 1 / ret / \
intr: / close s0 / push 2 / fail / end"
ENDS_OF_CALLS = "1 after 5 events: kid(-7): failed -7 / a search by calls of 6 states; calls may have more ends than these"
JSON_OF_CALLS = (
    '{"after":5,"arguments":[-7],"end":1,"function":"kid","heard":true,"task":{"code":-7,"outcome":"failed"},"version":1} / '
    '{"all_ends":false,"no_end":null,"refused":false,"states":6,"stopped":false,"version":1}'
)
CASE = '{"text": "func main 0\\npush 7\\nret\\nend\\n", "trace": "step 0\\nstep 0\\n"}'
ANSWER = (
    '{"case":1,"run":{"outcome":"success","steps":2,"value":7},"verdict":{"accepted":true,"budgets":'
    '[{"binds":0,"function":"main","scopes":0,"steps":2,"tasks":1}]},"version":1}'
)
UNCHANGED = b"refused, unchanged\n"
FROM_HERE, TO_HERE = b"from here\n", b"to here\n"


def budgets(name):
    """What `verify` prints of a row."""
    found = b""
    for row in ROWS[name][0].split(" / "):
        function, *most = row.split()
        found += b"".join(f"{function} {what} {it}\n".encode() for what, it in zip(("steps", "tasks", "scopes", "binds"), most))
    return found


def runs(name, text, status):
    """A run by workers with a journal and without one, and so with events from outside, in the place of a trace."""
    end, steps = ENDS[name]
    answer, *others = [budgets(name) + lines(f"{end} / steps {it}") for it in steps]
    for journal, said in ([], ""), (["--trace", "journal"], " with a journal"):
        for workers in ("1", "3"):
            words = ["run", "text", "--workers", workers, *journal]
            yield Case(f"run by {workers}{said}: {name}", words, lines(text), None, answer, status, others)
        words = ["run", "text", "--workers", "2", "--outside", "trace", *journal]
        yield Case(f"run with outside events{said}: {name}", words, lines(text), lines(DUES), answer, status, others)


def cases():
    """Each command of `sts` on the texts and traces that fit it."""
    for name, text, trace, answer, status in RUNS:
        for mode in ("plain", "replay"):
            yield Case(f"{mode}: {name}", [mode, "text", "trace"], lines(text), events(trace), lines(answer), status)
        if name != "many scopes":  # (its requests are those of `plain`, one for each scope and more)
            yield Case(f"joined: {name}", [], None, lines(text) + b"%\n" + events(trace), lines(answer), status)
        yield from runs(name, text, status)
        yield Case(f"verify: {name}", ["verify", "text"], lines(text), None, budgets(name), 0)
        yield Case(f"list: {name}", ["list", "text"], lines(text), None, listed(text), 0)
    for name, text, answer, status in REFUSED_TEXTS:
        yield Case(f"verify: {name}", ["verify", "text"], lines(text), None, lines(answer), status)
    words = ["run", "text", "--workers", "2"]
    yield Case("run: a way back", words, lines(REFUSED_TEXTS[0][1]), None, lines(REFUSED_TEXTS[0][2]), 4)
    faulty, answer = b"at 0 stop 1\n", b"error T1 line 1\n"
    yield Case("run: an outside text with a fault", [*words, "--outside", "trace"], lines(WORK), faulty, answer, 3)
    for name, words, status in (("help", ["--help"], 0), ("an unknown command", ["plane", "text"], 2), ("a missing file", ["replay", "text"], 2)):
        yield Case(name, words, None, None, b"", status)


def looks(look):
    """Each command of `look`, on a run with a scope whose time is up, on texts with a verdict of each kind, and on one case."""
    text, trace = lines(TIMED), events(SEEN)
    for words, answer in VIEWS:
        yield Case(" ".join(["view", *words]), ["view", "text", "trace", *words], text, trace, lines(answer), 5)
    for name, of_text, answer, status in EXPLAINED:
        yield Case(f"explain: {name}", ["explain", "text"], lines(of_text), None, lines(answer), status)
    ways, answer = "func main 0 / push 1 / jz x / push 2 / x: / push 3 / ret / end", "text:6:1: V7: two ways meet here, or a loop turns, and differ: \
make alike what is listed, or end one way by ret / text:6:1: note: operands: 0 on the way from line 3 (jumps: it was 0); 1 on the \
way from line 4 / text:3:1: note: one way comes from here / text:4:1: note: one way comes from here"
    yield Case("explain --lines", ["explain", "text", "--lines"], lines(ways), None, lines(answer), 4)
    yield Case("explain: a run", ["explain", "text", "trace"], text, trace, lines(TOLD), 5)
    for more in ([], ["--events", "2..3"]):
        yield Case(" ".join(["draw", *more]), ["draw", "text", "trace", *more], text, trace, picture(look, more, text, trace), 5)
    for more in ([], ["--trace", "1", "journal"]):
        yield Case(" ".join(["ends", *more]), ["ends", "text", *more], lines(SEVEN), None, lines(ENDS_OF_SEVEN), 0)
        of_seven = ["ends", "text", "--json", *more]
        yield Case(" ".join(["ends --json", *more]), of_seven, lines(f"{SEVEN} / ;= 7 seven"), None, lines(JSON_OF_SEVEN), 0)
        yield Case(" ".join(["ends --calls", *more]), ["ends", "text", "--calls", *more], lines(CALLING), None, lines(ENDS_OF_CALLS), 5)
    yield Case("ends --calls --json", ["ends", "text", "--calls", "--json"], lines(CALLING), None, lines(JSON_OF_CALLS), 5)
    yield Case("cases", ["cases", "text"], f"{CASE}\n".encode(), None, f"{ANSWER}\n".encode(), 0)
    with open(f"{programs.CHECKS}/help/look.txt", "rb") as stored:
        yield Case("look: help", ["--help"], None, None, stored.read(), 0)
    for name, words, status in (("an unknown command", ["veiw", "text"], 2), ("a missing file", ["draw", "text"], 2)):
        yield Case(f"look: {name}", words, None, None, b"", status)


def picture(look, more, text, trace):
    """What `look draw` writes for a text and a trace if nothing is refused; if that is no picture, what it never writes."""
    with tempfile.TemporaryDirectory() as folder:
        case = Case("draw", ["draw", "text", "trace", *more], text, trace, None, 5)
        refusing = Refusing(look, "", folder)
        refusing.put(case)
        (written, _), _ = refusing.run(case, "")
        return written if written.startswith(b"<svg") else b"no picture\n"


def routines(text):
    """The head of each function, its instructions, and the place of each label."""
    for routine in text.split("func ")[1:]:
        head, *body = [it.strip() for it in routine.split(" / ")]
        code, places = [], {}
        for line in itertools.takewhile(lambda it: it != "end", body):
            if line.endswith(":"):
                places[line[:-1]] = len(code)
            else:
                code.append(line)
        yield head, code, places


def listed(text):
    """The listing: labels are named after their places."""
    told = ""
    for head, code, places in routines(text):
        told += f"func {head}\n"
        for place, line in enumerate(code):
            word, *operands = line.split()
            told += f"L{place}:\n" if place in places.values() else ""
            told += " ".join([f"  {word}", *(f"L{places[it]}" if it in places else it for it in operands)]) + "\n"
        told += "end\n"
    return told.encode()


def spelled(text):
    """The words of each instruction, as the listing has them."""
    told = [it.strip() for it in listed(text).decode().splitlines() if it.startswith("  ")]
    return lines(" / ".join(told))


# The calls that need no memory of their own: the task of a constant has all that it needs once `start` is done.
NEED_NONE = ["apply: a constant"]
AGAIN = ("verify", "apply")  # the calls that are made once more if there was no memory
Call = collections.namedtuple("Call", "name case leads")


def ended(end):
    """How the program of the calls shows an end: `success 7` as `Success(7)`."""
    word, value = end.split()
    return f"{word.capitalize()}({value})"


def shown(most):
    """How the program of the calls shows budgets: `main 2 1 0 0` as `("main", 2, 1, 0, 0)`."""
    rows = [it.split() for it in most.split(" / ")]
    return " / ".join(f'("{name}", {", ".join(numbers)})' for name, *numbers in rows)


def calls():
    """Each call on each row, with what it answers and the calls that lead to it and it itself."""
    for name, text, trace, answer, _ in RUNS:
        most, alone = ROWS[name]
        end, steps = answer.split(" / ")
        for leads, said in (
            ("assemble spell", spelled(text)),
            ("assemble read_trace start apply", lines(f"(Ended({ended(end)}), {steps.split()[1]})")),
            ("assemble verify", lines(shown(most))),
            ("assemble verify prepare run_alone", FROM_HERE + TO_HERE + lines(ended(alone))),
            ("assemble verify book", FROM_HERE + TO_HERE + lines(f"Some({ended(alone)})")),
            ("assemble tree", lines("(1, 65537)")),
        ):
            leads = ["words", "take", *leads.split()]
            given = leads[-1].encode() + b"\n" + lines(text) + b"%\n" + events(trace)
            yield Call(f"{leads[-1]}: {name}", Case(f"{leads[-1]}: {name}", ["calls"], None, given, said, 0), leads)


def compiler():
    """A C compiler, if there is one."""
    return next((name for name in ("cc", "gcc", "clang") if shutil.which(name)), None)


def library_in(folder):
    """Makes refuse.c a library in this folder."""
    library = os.path.join(folder, "refuse.so")
    subprocess.run([compiler(), "-O1", "-shared", "-fPIC", "-o", library, f"{programs.CHECKS}/refuse.c", "-ldl"], check=True)
    return library


class Refusing:
    """A program with the library of refuse.c, in a folder with a case's files."""

    def __init__(self, program, library, folder):
        self.program, self.library, self.folder = os.path.realpath(program), library, folder

    def works(self, kind, case):
        """Is the first request of this kind refused?"""
        self.put(case)
        return self.run(case, f"{kind}:1")[1]

    def put(self, case):
        for name, content in (("text", case.text), ("trace", case.trace)):
            with open(os.path.join(self.folder, name), "wb") as file:
                file.write(content or b"")

    def run(self, case, refuse, out=subprocess.PIPE):
        """The output, the status, and the report of refuse.c, which is empty if nothing was refused."""
        told, tells = os.pipe()
        with open(os.path.join(self.folder, "trace"), "rb") as file:
            around = {"LD_PRELOAD": self.library, "REFUSE": refuse, "REFUSED": str(tells)}
            how = {"stdin": file, "stdout": out, "stderr": subprocess.PIPE, "cwd": self.folder, "env": around, "pass_fds": [tells]}
            try:
                done = subprocess.run([self.program, *case.words], timeout=SECONDS, **how)
            except subprocess.TimeoutExpired:
                done = subprocess.CompletedProcess([], NO_END, b"", b"")
        os.close(tells)
        refused = os.read(told, 4096)
        os.close(told)
        self.reason = done.stderr
        return (done.stdout, done.returncode), refused

    def cost(self, case, refuse):
        """What is printed and the status, and the processor seconds that the run took."""
        around = {"LD_PRELOAD": self.library, "REFUSE": refuse}
        begun = subprocess.Popen([self.program, *case.words], stdin=subprocess.DEVNULL, stdout=subprocess.PIPE, cwd=self.folder, env=around)
        end = threading.Timer(SECONDS, begun.kill)
        end.start()
        printed = begun.stdout.read()
        begun.stdout.close()
        end.cancel()
        _, status, used = os.wait4(begun.pid, 0)
        begun.returncode = os.waitstatus_to_exitcode(status)
        return (printed, begun.returncode), used.ru_utime + used.ru_stime


def told_of(what, told):
    """The two numbers of each line of `count` of this kind: `write` or `thread`."""
    rows = [it.split() for it in told.decode().splitlines()]
    return [(int(first), int(second)) for kind, first, second in rows if kind == what]


def own_requests(refusing, case):
    """How many requests for memory belong to the start of a worker before its thread is started: those between two starts."""
    _, told = refusing.run(case._replace(words=["run", "text", "--workers", "2"]), "count")
    (_, after), (before, _) = told_of("thread", told)
    return before - after


def starts(refusing, case):
    """The numbers of the requests for memory that belong to the starts of workers."""
    if case.words[:1] != ["run"]:
        return set()
    _, told = refusing.run(case, "count")
    threads = told_of("thread", told)
    own = own_requests(refusing, case) if threads else 0
    return {n for before, after in threads for n in range(before - own + 1, after + 1)}


def is_right(kind, answer, case, is_start):
    """Is it an answer to a case in which something of this kind was refused, perhaps what the start of a worker asked for?"""
    if kind == "memory":
        return answer == NO_MEMORY or answer in right_answers(case) or is_start and answer == NO_THREADS
    if kind == "thread":
        return answer == NO_THREADS
    if kind == "read":
        return answer == NO_FILE
    if kind == "exhaust":
        return answer == NO_MEMORY
    if kind == "signal":
        return answer in right_answers(case)
    if (case.status > 2 or "--outside" in case.words) and answer in right_answers(case):
        return True  # (the whole answer was written, and the lines on standard error were not)
    begins = any(it.startswith(answer[0]) for it, _ in right_answers(case))
    return ("journal" in case.words and answer == NO_FILE) or answer[1] == 6 and begins


def refusals(refusing, case, kind, later=""):
    """Yields for each n whether the answer is right if the nth request of this kind is refused."""
    of_starts = starts(refusing, case) if kind == "memory" else ()
    for n in itertools.count(1):
        answer, refused = refusing.run(case, f"{kind}:{n}{later}")
        right = is_right(kind, answer, case, n in of_starts) if refused else answer in right_answers(case)
        if kind == "exhaust" and refused:
            right = right and refusing.reason.endswith(b": out of memory\n")
        yield right, f"{kind}:{n}{later}", answer
        if not refused or answer[1] == NO_END:
            return


def workers(refusing, case):
    """Yields for each number of workers whether a run starts that number of threads, with a journal and without one."""
    for count in (1, 2, 3, 4, 8, 16):
        for journal in ([], ["--trace", "journal"]):
            words = ["run", "text", "--workers", str(count), *journal]
            answer, told = refusing.run(case._replace(words=words), "count")
            found = len(told_of("thread", told))
            yield answer in right_answers(case) and found == count, f"{count} workers {journal}", (answer, found)


# A `main` of 990,103 steps.  Each third of them asks whether its task was interrupted, which a worker does under the lock.
LONG = "func main 0 / push 33 / times 33 / push 10000 / times 10000 / interrupted / pop / next / next / push 0 / ret / end"
OF_LONG = "main steps 990103 / main tasks 1 / main scopes 0 / main binds 0 / success 0 / steps 990103"


def stops(refusing, case):
    """Yields whether a run ends early if its last worker isn't started, with a journal and without one."""
    refusing.put(case)
    for words in (case.words, [*case.words, "--trace", "journal"]):
        case = case._replace(words=words)
        whole, refused = ([refusing.cost(case, it) for _ in range(9)] for it in ("", "thread:3"))
        answers = {it for it, _ in whole}, {it for it, _ in refused}
        least = [min(seconds for _, seconds in it) for it in (whole, refused)]
        right = answers == ({(case.answer, 0)}, {NO_THREADS}) and 2 * least[1] < least[0]
        yield right, f"a worker that isn't started: {words}", (answers, least)


def outputs(refusing, case):
    """Yields whether the answer is right with one byte at a time, and if the output is full, closed, or read by nobody."""
    answer, _ = refusing.run(case, "short")
    yield answer in right_answers(case), "short", answer
    if not case.answer:
        return
    reader, nobody = os.pipe()
    os.close(reader)
    with open("/dev/full", "wb") as full, open("/dev/null", "rb") as closed, open(nobody, "wb") as gone:
        for what, out in (("full", full), ("closed", closed), ("read by nobody", gone)):
            (_, status), _ = refusing.run(case, "", out)
            yield status == 6, what, status


def requests(refusing, case):
    """Yields whether the answer is right for each request that is refused, and for each way in which the output fails."""
    refusing.put(case)
    for kind, later in (("memory", ""), ("memory", "+"), ("read", ""), ("exhaust", ""), ("signal", ""), ("write", "")):
        yield from refusals(refusing, case, kind, later)
    yield from outputs(refusing, case)


def threads(refusing, case):
    """Yields whether the answer is right for each worker that isn't started, and whether as many are as were asked for."""
    refusing.put(case)
    yield from refusals(refusing, case, "thread")
    if case.words == ["run", "text", "--workers", "3"]:
        yield from workers(refusing, case)


def without_memory(call, answer, later):
    """The call that found no memory, by the output; none if that is no answer to a refusal."""
    printed, status = answer
    for lead in call.leads:
        refusal = f"error memory in {lead}\n".encode()
        before = printed.removesuffix(refusal)
        if lead in AGAIN and not later:  # (the second time there is memory)
            right = answer == (UNCHANGED + call.case.answer, 0)
        elif lead in AGAIN:
            right = answer == (UNCHANGED + refusal, 6)
        elif lead in ("spell", "prepare", "run_alone"):  # whole lines of the right answer come before the refusal
            right = status == 6 and printed != before and before in begun(call, lead)
        else:
            right = answer == (refusal, 6)
        if right:
            return lead
    return None


def begun(call, lead):
    """What is printed before a call finds no memory."""
    if lead == "spell":
        rows = call.case.answer.splitlines(keepends=True)
        return [b"".join(rows[:n]) for n in range(len(rows))]
    return [FROM_HERE if lead == "prepare" else FROM_HERE + TO_HERE]


def refused_in_turn(refusing, call, later):
    """Yields for each n whether the answer is right, and last whether each call that leads there was met, in this order."""
    right, met = right_answers(call.case), []
    for n in itertools.count(1):
        answer, refused = refusing.run(call.case, f"memory:{n}{later}")
        if not refused or answer[1] == NO_END:
            break
        lead = without_memory(call, answer, later)
        met += [lead] if lead and [lead] != met[-1:] else []
        # a call may do without what was refused
        yield lead is not None or answer in right, f"memory:{n}{later}", answer
    yield answer in right, f"memory:{n}{later}", answer
    yield met == (call.leads[:-1] if call.name in NEED_NONE else call.leads), f"memory:..{later}", met


def asks_nothing(refusing, call):
    """Yields whether a whole run makes no request for memory: in a book none comes between the two marks, which are two
    writes, and `run_alone` makes as many after them as `prepare` makes between them."""
    answer, told = refusing.run(call.case, "count")
    counts, written = {}, 0
    for requests, size in told_of("write", told):
        counts[answer[0][written : written + size]] = requests
        written += size
    first, last, end = (counts.get(it, 0) for it in call.case.answer.splitlines(keepends=True))
    right = 0 < first == last if "book" in call.leads else 0 < first < last and last - first == end - last
    yield right, "count", (answer, counts)


def call_refused(refusing, call):
    """Yields whether the answer is right for each request of a call, and of those that lead to it, that is refused."""
    refusing.put(call.case)
    for later in ("", "+"):
        yield from refused_in_turn(refusing, call, later)
    if FROM_HERE in call.case.answer:
        yield from asks_nothing(refusing, call)


# A case or a call that is tried on a program, and the function that tries it
Trial = collections.namedtuple("Trial", "program tries case")


def requests_of_sts(sts, look):
    """Yields the trials of a part. So do the three functions below."""
    for it in cases():
        yield Trial(sts, requests, it)


def threads_of_sts(sts, look):
    for it in cases():
        if it.words[:1] == ["run"] and it.status < 2:
            yield Trial(sts, threads, it)
    yield Trial(sts, stops, Case("a long run", ["run", "text", "--workers", "3"], lines(LONG), None, lines(OF_LONG), 0))


def requests_of_look(sts, look):
    for it in looks(look):
        yield Trial(look, requests, it)


def single_calls(sts, look):
    is_unproved = sys.argv[1:2] == [programs.UNPROVED]
    program = programs.unproved("tests_rows") if is_unproved else programs.proved("tests_rows")
    programs.needs(program)
    for it in calls():
        yield Trial(program, call_refused, it)


PARTS = {it.__name__: it for it in (requests_of_sts, threads_of_sts, requests_of_look, single_calls)}


def answered(trials, library):
    """Yields for each trial its name, how many answers are right, and what was answered wrongly; as many at a time as there
    are processors for this script. Once a run didn't end, no other trial begins, since each might take as long."""
    has_no_end = threading.Event()

    def outcome(trial):
        if has_no_end.is_set():
            return trial.case.name, 0, [("not tried", "another run didn't end")]
        with tempfile.TemporaryDirectory() as folder:
            answers = list(trial.tries(Refusing(trial.program, library, folder), trial.case))
        if any(answer == (b"", NO_END) for _, _, answer in answers):
            has_no_end.set()
        return trial.case.name, sum(right for right, _, _ in answers), [(what, answer) for right, what, answer in answers if not right]

    with concurrent.futures.ThreadPoolExecutor(len(os.sched_getaffinity(0))) as pool:
        yield from pool.map(outcome, trials)


def is_refused(kind, sts, library, folder):
    """Returns whether the library refuses a request of this kind."""
    case = next(it for it in cases() if it.words[:1] == ["run"])
    return Refusing(sts, library, folder).works(kind, case)


def main():
    both, named = programs.taken(sys.argv[1:], "sts", "look")
    named, tally = parts(named, PARTS), Tally()
    if not compiler():
        print("memory: FAILED, nothing was refused: there is no C compiler (cc, gcc or clang)", file=sys.stderr)
        return 1
    with tempfile.TemporaryDirectory() as folder:
        library = library_in(folder)
        for kind in {"thread" if it == "threads_of_sts" else "memory" for it in named}:
            if not is_refused(kind, both[0], library, folder):
                print(f"memory: FAILED, no {kind} was refused to the program here by refuse.so", file=sys.stderr)
                return 1
        trials = [trial for it in named for trial in PARTS[it](*both)]
        for name, right, wrong in answered(trials, library):
            tally.passed += right
            print(f"{name}: {right + len(wrong)} runs")
            for what, answer in wrong:
                tally.holds(f"{name}, {what}", False, answer)
    return tally.end()
