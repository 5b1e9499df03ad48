"""Builds the recorder and the Java programs, and records runs of them."""
import glob
import os
import shutil
import subprocess
import sys

HERE = os.path.dirname(os.path.realpath(__file__))
ROOT = os.path.dirname(HERE)
PATIENCE, HANGING_PATIENCE = 600, 20  # seconds
REPEATING = {"Clash", "Custom", "Edge", "Outside", "Orders", "Quotes", "Search"}  # they are given how often
SIZED = {"Fan": "40", "Quotes": "20", "Tree": "16"}  # they are given how many subtasks
HANGING = {"Stuck"}
SLOW = {"Held": 20}  # runs at most: each waits for a second
UNSCOPED = {"seven", "no_way_out_of_a_loop"}  # programs without a scope
HIDDEN = {"two_successes"}  # it runs until two subtasks succeed under `any`, and the recorder's lock never lets them


def counts(folder):
    """Returns how often each recording of a folder came."""
    path = os.path.join(folder, "counts")
    if not os.path.exists(path):
        return {}
    with open(path) as file:
        return {name: int(count) for count, name in (line.split() for line in file)}


def sources():
    """Returns the source of each program, by its name: the services first, then the Java programs of jdk."""
    folders = (f"{HERE}/services/shop", f"{ROOT}/jdk/examples", f"{ROOT}/jdk/differences")
    return {os.path.basename(it)[:-len(".java")]: it for folder in folders for it in sorted(glob.glob(f"{folder}/*.java"))}


def is_service(name):
    return os.path.exists(f"{HERE}/services/shop/{name}.java")


class Runs:
    """Records runs of programs into the folder `room`. Builds the recorder and compiles all programs, if that isn't done there."""

    def __init__(self, home, room):
        self.java, self.javac = (os.path.join(home, "bin", it) for it in ("java", "javac"))
        self.room, self.jar = os.path.abspath(room), os.path.join(HERE, "recorder.jar")
        self.classes = os.path.join(self.room, "classes")
        os.makedirs(self.room, exist_ok=True)
        agent = glob.glob(f"{HERE}/src/recorder/*.java")
        if not self.is_new(self.jar, agent):
            self.done([os.path.join(HERE, "build.sh")])
        programs = [*sources().values(), f"{HERE}/Loop.java"]
        if not self.is_new(os.path.join(self.classes, "Loop.class"), programs):
            self.done([self.javac, "--enable-preview", "--release", "25", "-d", self.classes, *programs])

    @staticmethod
    def is_new(made, of):
        return os.path.exists(made) and all(os.path.getmtime(made) > os.path.getmtime(it) for it in of)

    @staticmethod
    def done(words):
        said = subprocess.run(words, capture_output=True, text=True)
        if said.returncode != 0:
            raise SystemExit(f"{words[0]}: {said.stdout}{said.stderr}")

    @staticmethod
    def names():
        """Returns the programs that come to an end and open a scope."""
        return [it for it in sources() if it not in HANGING | UNSCOPED | HIDDEN]

    def record(self, name, times=1, *words, size=None):
        """Records runs of a program, and returns the folder of the recordings.

        `words` are words of the agent. `size` is how many subtasks there are, where the program takes this.
        """
        folder = os.path.join(self.room, "recorded", name)
        shutil.rmtree(folder, ignore_errors=True)
        os.makedirs(folder)
        agent = ",".join([f"-javaagent:{self.jar}=folder={folder}", "values=text", *words])
        main = f"shop.{name}" if is_service(name) else name
        size = [size or SIZED[name]] if name in SIZED else []
        run = [main, str(times), *size] if name in REPEATING else ["Loop", main, str(times), *size]
        try:
            said = subprocess.run([self.java, agent, "--enable-preview", "-cp", self.classes, *run], capture_output=True, text=True,
                                  timeout=PATIENCE if name not in HANGING else HANGING_PATIENCE)
            for line in said.stderr.splitlines():
                if line.startswith("recorder:"):
                    print(f"  {name}: {line}", file=sys.stderr)
        except subprocess.TimeoutExpired:
            if name not in HANGING:
                raise
        return folder
