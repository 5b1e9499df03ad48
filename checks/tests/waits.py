"""Searches every schedule of workers over the rule of `sts_waits` for one that never ends.  [PROGRAM|--unproved] [small|large]

The program `tests_waits` plays up to three workers, hold by hold, over the code that runs use. It prints a line for each
search: its name, how many states it has, and what is wrong. `small` compares the searches of its stored run, which `rt ci`
compares, too, with the lines that it stores; they take a second. `large` makes the others. The last line is `N passed, M
failed`.
"""
import re
import sys

from checks import programs
from checks.tally import Tally, parts

LINE = re.compile(r"(.+): (\d+) states, (.+)")
WELL = "well"
STORED = f"{programs.ROOT}/crates/tests_waits/stdout"
PATIENCE = 60  # The seconds that small searches may take: over a wrong rule one may not end.


def small(program, tally):
    status, printed = programs.says(program, "small", seconds=PATIENCE)
    with open(STORED, encoding="utf-8") as stored:
        tally.equals("the small searches", (status, printed), (0, stored.read()))


def large(program, tally):
    status, printed = programs.says(program, "large")
    print(printed, end="")
    for line in printed.splitlines():
        match = LINE.fullmatch(line)
        tally.holds(match[1] if match else "a line", match and match[3] == WELL, line)
    tally.equals("the status of the program", status, 0)


PARTS = {"small": small, "large": large}


def main():
    [program], words = programs.taken(sys.argv[1:], "tests_waits")
    tally = Tally()
    for it in parts(words, PARTS):
        PARTS[it](program, tally)
    return tally.end()
