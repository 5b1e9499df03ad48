"""The Java programs. Those of the examples and patterns reach one of the ends of their texts. Those of the differences
print what they say."""
import glob
import os
import re
import subprocess
import tempfile

from checks.models import all_ends
from checks.documents import pages
import known
from checks.models import plain_machine
from checks.models import stack_code

HERE = os.path.dirname(os.path.realpath(__file__))
TIMES = 3  # that each program of an example is run


class Ran:
    def __init__(self):
        self.count, self.failures, self.otherwise = 0, [], set()


def names(folder):
    return sorted(os.path.basename(it)[:-len(".java")] for it in glob.glob(f"{HERE}/{folder}/*.java"))


def texts():
    """Returns the text that belongs to each Java program: an example or a pattern of the same name."""
    root = os.path.dirname(HERE)
    paths = sorted(glob.glob(f"{root}/examples/*.sts") + glob.glob(f"{root}/examples/patterns/*.sts"))
    return {os.path.basename(it)[:-len(".sts")]: pages.read(os.path.relpath(it, root)) for it in paths}


def prints(jdk, folder, name):
    done = subprocess.run(jdk.command(folder, name), capture_output=True, text=True, timeout=120)
    return done.stdout.splitlines() + done.stderr.splitlines()


def ends_of(text, source, machine):
    """Returns the ends of a text; a Java program that interrupts itself has an interrupt."""
    return all_ends.ends(stack_code.program(text), machine, is_expiring=True, interrupts=int(".interrupt()" in source))[0]


def is_end(lines, ends):
    """Is the output an end? For a fault only its kind is printed."""
    return len(lines) == 1 and any(it == lines[0] or it.startswith(f"{lines[0]} task ") for it in ends)


def judge(ran, name, text, printed):
    """Adds what is wrong with what a program printed."""
    source = pages.read(f"jdk/examples/{name}.java")
    ends = ends_of(text, source, plain_machine.Machine)
    if is_end(printed, ends):
        return
    if is_end(printed, ends_of(text, source, known.JdkMachine)):
        ran.otherwise.add(name)
    else:
        ran.failures.append(f"{name}.java prints {printed}, the ends are {sorted(ends)}")


def of_examples(jdk, pool, ran):
    beside, there = texts(), names("examples")
    ran.failures += [f"{it} has a Java program or a text alone" for it in sorted(set(beside) ^ set(there))]
    with tempfile.TemporaryDirectory() as folder:
        ran.failures += compiled(jdk, folder, "examples")
        given = [(jdk, folder, name) for name in there if name in beside]
        ran.count += len(given)
        for (_, _, name), printed in zip(given * TIMES, pool.map(prints, *zip(*given * TIMES))):
            judge(ran, name, beside[name], printed)


def of_differences(jdk, pool, ran):
    with tempfile.TemporaryDirectory() as folder:
        ran.failures += compiled(jdk, folder, "differences")
        given = [(jdk, folder, name) for name in names("differences")]
        for (_, _, name), printed in zip(given, pool.map(prints, *zip(*given))):
            expected = re.findall(r"^// Prints: (.*)$", pages.read(f"jdk/differences/{name}.java"), re.M)
            ran.failures += [] if printed == expected else [f"{name}.java prints {printed}, it says {expected}"]
            ran.count += 1


def compiled(jdk, folder, sources):
    said = jdk.compile(folder, sorted(glob.glob(f"{HERE}/{sources}/*.java")))
    return [said] if said else []


def run(pool, jdk):
    """Runs all Java programs. `otherwise` has those of examples that come to an end by a known difference alone."""
    ran = Ran()
    of_examples(jdk, pool, ran)
    of_differences(jdk, pool, ran)
    return ran
