"""Runs 1,000,000 cases by `look cases` and GNU parallel.  [LOOK|--unproved] [--cases N] [--jobs N] [--seed S]

`parallel` runs a job for each block of 1,000 cases, and writes a job log. A job draws its block, asks `look cases`, and compares.
Half of the cases are drawn as by `differ`. They have no expected answer; in each tenth block `vectors/reader` answers the first
ten, too. The others are texts of vectors/ with other blanks, comments and empty lines, which change no answer. Each answer has
the number of its line.

Afterwards a second call with `--resume` has to run no job. Then 5,000 cases go through `parallel --pipe --keep-order`, and each
answer has to be the one of a single `look cases`. This check isn't in the gate. If GNU parallel isn't installed, it says that it
did not run, with status 2. The last line is `N passed, M failed`, of answers.
"""
import argparse
import glob
import json
import os
import random
import shlex
import subprocess
import sys
import tempfile

from checks import programs
from checks.programs import CHECKS, ROOT
from checks.tally import Tally
from checks.tests.cases import agrees, wanted
from checks.tests.differ import drawn

BLOCK = 1000
SAMPLE = 5000
LONGEST = 30_000
MEMBERS = {"name", "text", "trace", "expected"}
KEPT = {"run", "verdict", "trace_fault"}


# ---- a block


def bases():
    """Returns the cases of vectors/ whose answers don't name a line of the text, and that aren't long."""
    found = []
    for path in sorted(glob.glob(f"{ROOT}/vectors/*.jsonl")):
        with open(path) as file:
            found += [it for it in map(json.loads, file) if set(it) <= MEMBERS and set(it["expected"]) <= KEPT and len(it["text"]) < LONGEST]
    return found


def respelled(draw, text):
    """Returns the text with other blanks and comments, and with empty lines. The first line, which may be `profile`, stays."""
    first, *rest = text.split("\n")
    lines = [first]
    for line in rest[:-1]:
        if draw.random() < 0.1:
            lines.append(draw.choice(["", "   ", "\t", f"; {draw.randrange(10**6)}"]))
        lines.append(draw.choice(["", "", " ", "\t  "]) + line + draw.choice(["", "", "  ", f" ; {draw.randrange(10**6)}"]))
    return "\n".join([*lines, *rest[-1:]])


def block(seed, number):
    """Yields the cases of a block."""
    known = bases()
    for place in range(number * BLOCK, (number + 1) * BLOCK):
        if place % 2:
            draw = random.Random(f"million {seed} {place}")
            case = draw.choice(known)
            yield {**case, "text": respelled(draw, case["text"])}
        else:
            text, events, *_ = drawn(seed, place)
            yield {"name": f"seed {seed} case {place}", "text": text, "trace": events}


def without_lines(answer):
    """Returns what the reader has to say, too: it doesn't name the line of a refusal or of a fault."""
    if "text_fault" in answer:
        return [{"text_fault": answer["text_fault"]}]
    said = [{name: {key: it for key, it in answer[name].items() if key != "line"}} for name in ("run", "verdict") if name in answer]
    return said + [{"trace_fault": answer["trace_fault"]} for _ in range("trace_fault" in answer)]


def read_too(cases, answers):
    """Returns whether `vectors/reader` has the same answers to these cases."""
    lines = []
    for case, answer in zip(cases, answers):
        for expected in without_lines(answer):
            asked = {key: it for key, it in case.items() if key != "trace" or "verdict" not in expected}
            lines.append(json.dumps({**asked, "expected": expected}))
    with tempfile.TemporaryDirectory() as folder:
        path = programs.kept(folder, "cases", "".join(f"{it}\n" for it in lines))
        done = subprocess.run([sys.executable, f"{ROOT}/vectors/reader", path], capture_output=True, text=True)
    if done.returncode:
        print(done.stdout, done.stderr, file=sys.stderr)
    return done.returncode == 0


def compare(number):
    """Prints how many answers of a block are right, wrong, had an expected answer, and were read, too."""
    with open(f"{number}.jsonl") as cases, open(f"{number}.answers") as answers:
        cases, answers = [json.loads(it) for it in cases], [json.loads(it) for it in answers]
    tally, expected = Tally(), 0
    for place, case in enumerate(cases):
        answer = answers[place] if place < len(answers) else {}
        has = {"case": place + 1, "version": 1} if "expected" not in case else wanted(case, place + 1)
        tally.holds(case["name"], agrees(answer, has) and "error" not in answer, answer)
        expected += "expected" in case
    drawn_ones = [(case, it) for case, it in zip(cases, answers) if "expected" not in case][:10] if number % 10 == 0 else []
    if drawn_ones and not read_too(*zip(*drawn_ones)):
        tally.passed, tally.failed = tally.passed - 1, tally.failed + 1
    print(tally.passed, tally.failed, expected, len(drawn_ones))


# ---- all blocks


def parallel(folder, *words, **around):
    """Runs GNU parallel in a folder, and returns what it prints."""
    return subprocess.run(["parallel", "--will-cite", *words], cwd=folder, stdout=subprocess.PIPE, **around).stdout


def job(look, seed):
    """Returns the command of a job, in which `{}` is the number of its block."""
    own = f"{shlex.quote(sys.executable)} {shlex.quote(CHECKS)} million --seed {seed}"
    return f"{own} --draw {{}} > {{}}.jsonl && {shlex.quote(look)} cases {{}}.jsonl > {{}}.answers && {own} --compare {{}} && rm {{}}.jsonl {{}}.answers"


def numbered(printed):
    """Returns the answers without the numbers of their lines, which count from the beginning of each block."""
    return [{key: it for key, it in json.loads(line).items() if key != "case"} for line in printed.splitlines()]


def streamed(look, folder, tally, seed, jobs):
    """Compares a stream in blocks with a single call."""
    with open(os.path.join(folder, "sample"), "w") as file:
        for number in range(SAMPLE // BLOCK):
            file.writelines(f"{json.dumps(case)}\n" for case in block(seed + 1, number))
    with open(os.path.join(folder, "sample"), "rb") as file:
        blocks = numbered(parallel(folder, "--pipe", "--keep-order", "--block", "1M", "--jobs", str(jobs), f"{shlex.quote(look)} cases -", stdin=file))
    alone = numbered(programs.says(look, "cases", os.path.join(folder, "sample"), is_text=False)[1])
    tally.equals("answers of a stream", (len(blocks), len(alone)), (SAMPLE, SAMPLE))
    for number, (one, other) in enumerate(zip(blocks, alone), 1):
        tally.equals(f"answer {number} of a stream", one, other)


def run_all(look, count, jobs, seed):
    """Runs all blocks, and returns the tally."""
    tally, expected, read = Tally(), 0, 0
    with tempfile.TemporaryDirectory() as folder:
        numbers = "".join(f"{it}\n" for it in range(count // BLOCK)).encode()
        words = ["--jobs", str(jobs), "--keep-order", "--resume", "--joblog", "log", job(look, seed)]
        lines = parallel(folder, *words, input=numbers).decode().splitlines()
        for line in lines:
            right, wrong, had, also = map(int, line.split())
            tally.passed, tally.failed = tally.passed + right, tally.failed + wrong
            expected, read = expected + had, read + also
        tally.equals("jobs", len(lines), count // BLOCK)
        tally.equals("jobs of a second call", parallel(folder, *words, input=numbers), b"")
        print(f"{len(lines)} jobs; {expected} cases had an expected answer, and the reader answered {read} others, too")
        streamed(look, folder, tally, seed, jobs)
    return tally


def is_there():
    """Returns whether GNU parallel is installed. (Another program has the same name.)"""
    try:
        return b"GNU parallel" in subprocess.run(["parallel", "--version"], capture_output=True).stdout
    except FileNotFoundError:
        return False


def main():
    reads = argparse.ArgumentParser(description="Runs many cases by `look cases` and GNU parallel.")
    reads.add_argument("program", nargs="?", help="the program (crates/look/out/look)")
    reads.add_argument("--unproved", action="store_true", help="takes the program without proofs, and builds it if need be")
    reads.add_argument("--cases", type=int, default=1_000_000, help="how many cases (1000000)")
    reads.add_argument("--jobs", type=int, default=os.cpu_count(), help="how many jobs at a time (as many as processors)")
    reads.add_argument("--seed", type=int, default=1, help="what the cases are drawn from (1)")
    reads.add_argument("--draw", type=int, metavar="K", help="print block K, and run nothing")
    reads.add_argument("--compare", type=int, metavar="K", help="compare the answers of block K, and run nothing")
    asked = reads.parse_args()
    if asked.draw is not None:
        sys.stdout.writelines(f"{json.dumps(case)}\n" for case in block(asked.seed, asked.draw))
        return 0
    if asked.compare is not None:
        compare(asked.compare)
        return 0
    if not is_there():
        print("million: did not run, since GNU parallel is not installed (Debian: apt-get install parallel)", file=sys.stderr)
        return 2
    [look], _ = programs.taken(programs.words_of(asked), "look")
    return run_all(look, asked.cases, asked.jobs, asked.seed).end()
