"""Tests the agent itself with a JDK 25: its words, its limits, how a program is started, and that it never hangs or throws."""
import concurrent.futures
import glob
import os
import re
import subprocess
import sys
import tempfile
import time

import player
import recording
import runs
import texts

HERE = os.path.dirname(os.path.realpath(__file__))


class Edges:
    def __init__(self, home, room):
        self.ran, self.room, self.home, self.failures, self.count = runs.Runs(home, room), room, home, [], 0
        self.jar = os.path.join(HERE, "recorder.jar")

    def java(self, agent, *words, path=None, preview=True, wait=60):
        """Runs a program with the agent's words, and returns the status, the output and the messages."""
        line = [self.ran.java, f"-javaagent:{self.jar}={agent}", *(["--enable-preview"] if preview else []),
                *(["-cp", path or self.ran.classes] if path != "" else []), *words]
        said = subprocess.run(line, capture_output=True, text=True, timeout=wait, cwd=self.room)
        return said.returncode, said.stdout, said.stderr

    def demand(self, what, holds, said=""):
        self.count += 1
        if not holds:
            self.failures.append(what)
            print(f"  FAILS: {what}: {said}")

    def recordings(self, folder):
        return sorted(glob.glob(f"{self.room}/{folder}/*.rec"))

    # ---- words

    def words(self):
        status, said, told = self.java("help", "shop.Both")
        self.demand("help lists the words", "values=none" in told and "most=N" in told and said == "3\n", told)
        status, said, told = self.java("valeus=text", "shop.Both")
        self.demand("a wrong word is named, and the program runs", "no word valeus" in told and said == "3\n" and not self.recordings("recorded"), told)
        _, said, told = self.java("most=x", "shop.Both")
        self.demand("a wrong number is named", "a number is expected in most=x" in told and said == "3\n", told)
        _, said, told = self.java("folder=/proc/none", "shop.Both")
        self.demand("a folder that can't be made is named, and the program runs", "isn't written" in told and said == "3\n", told)
        _, said, told = self.java("folder=np", "-version", path="", preview=False)
        self.demand("without --enable-preview it says so", "no --enable-preview" in told, told)

    def other_jdks(self):
        """Any other JDK that is installed, from 17 on, says that it records nothing, and starts the program."""
        for home in sorted(it for place in player.PLACES for it in glob.glob(place) if not player.is_jdk25(it) and os.access(f"{it}/bin/java", os.X_OK)):
            told = subprocess.run([f"{home}/bin/java", "-version"], capture_output=True, text=True).stderr
            version = int(re.search(r'"(\d+)', told)[1])
            if version >= 17:
                done = subprocess.run([f"{home}/bin/java", f"-javaagent:{self.jar}", "-version"], capture_output=True, text=True, cwd=self.room)
                self.demand(f"JDK {version} says that it isn't known", done.returncode == 0 and f"this is JDK {version}, and only JDK 25" in done.stderr, done.stderr)

    def values(self):
        self.java("folder=none", "shop.Fastest")
        text = open(self.recordings("none")[0]).read()
        self.demand("without values=text no text of a value is written", "cache" not in text and '"type": "String"' in text, text)
        self.java("folder=text,values=text", "shop.Fastest")
        self.demand("values=text writes texts", "cache" in open(self.recordings("text")[0]).read())

    def limits(self):
        self.java("folder=most,most=3", "shop.Orders", "40")
        self.demand("most=3 leaves three recordings", len(self.recordings("most")) == 3)
        self.java("folder=every,every=10", "shop.Search", "40")
        counts = runs.counts(f"{self.room}/every")
        self.demand("every=10 records 4 of 40 requests, and no inner scope", sum(counts.values()) == 4 and all("Search_49" in it for it in counts), counts)
        self.java("folder=zero,most=0", "shop.Orders", "5")
        self.demand("most=0 records nothing", not self.recordings("zero"))
        self.java("folder=left,leave=shop", "shop.Both")
        self.demand("leave=shop leaves the package alone", not self.recordings("left"))
        self.java("folder=equal", "Loop", "shop.Both", "30")
        counts = runs.counts(f"{self.room}/equal")
        self.demand("equal recordings are merged and counted", sum(counts.values()) == 30 and len(counts) == len(self.recordings("equal")) < 10, counts)

    def later_runs(self):
        """Runs that use one folder, one after the other or side by side, lose no recording of another one."""
        for n in (1, 2):
            self.java("folder=again", "Loop", "shop.Both", "30")
            counts = runs.counts(f"{self.room}/again")
            self.demand(f"{n} runs are counted", sum(counts.values()) == 30 * n and len(counts) == len(self.recordings("again")) < 10, counts)
        self.java("folder=again,values=text", "shop.Fastest")
        self.demand("another program's recording is added", len(self.recordings("again")) == len(counts) + 1)
        with concurrent.futures.ThreadPoolExecutor(3) as pool:
            list(pool.map(lambda _: self.java("folder=beside", "Loop", "shop.Both", "30"), range(3)))
        counts = runs.counts(f"{self.room}/beside")
        self.demand("three runs side by side are counted", sum(counts.values()) == 90 and set(counts) == {os.path.basename(it)[:-4] for it in self.recordings("beside")}, counts)

    # ---- how a program is started

    def jar_and_module(self):
        jar = [os.path.join(self.home, "bin", "jar"), "--create", "--file"]
        subprocess.run([*jar, f"{self.room}/both.jar", "--main-class", "shop.Both", "-C", self.ran.classes, "shop"], check=True)
        self.java("folder=jar", "-jar", f"{self.room}/both.jar", path="")
        self.demand("a program of -jar is recorded", len(self.recordings("jar")) == 1)
        os.makedirs(f"{self.room}/module/shop", exist_ok=True)
        for name, text in (("module-info.java", "module shop { }"), ("shop/Both.java", open(runs.sources()["Both"]).read())):
            with open(f"{self.room}/module/{name}", "w") as file:
                file.write(text)
        subprocess.run([self.ran.javac, "--enable-preview", "--release", "25", "-d", f"{self.room}/modules/shop",
                        *glob.glob(f"{self.room}/module/**/*.java", recursive=True)], check=True, capture_output=True)
        self.java("folder=module", "-p", f"{self.room}/modules", "-m", "shop/shop.Both", path="")
        self.demand("a program of a named module is recorded", len(self.recordings("module")) == 1)

    # ---- hangs

    def hangs(self):
        since = time.time()
        _, said, told = self.java("folder=held", "shop.Held")
        text = open(self.recordings("held")[0]).read()
        self.demand("a joiner that waits for the application's lock doesn't hang", said == "5\n" and time.time() - since < 30, said)
        self.demand("and its recording says that it was given up", '"unfinished": "the recorder\'s lock' in text, text[:200])
        self.hanging("folder=dump,dump=1", lambda process: None)
        self.demand("dump=1 writes a program that hangs", len(self.recordings("dump")) == 1)
        jcmd = [os.path.join(self.home, "bin", "jcmd")]
        self.hanging("folder=jcmd", lambda process: subprocess.run([*jcmd, str(process.pid), "JVMTI.agent_load", self.jar, "dump"], capture_output=True))
        self.demand("jcmd writes a program that hangs", len(self.recordings("jcmd")) == 1)
        text = "".join(open(it).read() for it in self.recordings("jcmd"))
        self.demand("with the line of each task", "Stuck.java:12 in CountDownLatch.await" in text, text)

    def hanging(self, agent, ask):
        """Runs the program that hangs for some seconds, and then ends it."""
        process = subprocess.Popen([self.ran.java, f"-javaagent:{self.jar}={agent}", "--enable-preview", "-cp", self.ran.classes, "shop.Stuck"],
                                   cwd=self.room, stdout=subprocess.DEVNULL, stderr=subprocess.DEVNULL)
        time.sleep(8)
        ask(process)
        process.kill()
        process.wait()

    def many(self):
        """Ten thousand forks of one line are recorded, and their text is short."""
        self.java("folder=many", "shop.Fan", "10000", wait=120)
        text, trace, _ = texts.replayed(recording.read(self.recordings("many")[0]))
        self.demand("10,000 forks are recorded", text.count("times 10000") == 1 and trace.count("\n") > 30_000, len(text))

    def same_output(self):
        """The recorder changes nothing that a program prints."""
        for name in ("sum", "retry", "deadline", "scoped_values", "handle_of_a_subtask"):
            plain = subprocess.run([self.ran.java, "--enable-preview", "-cp", self.ran.classes, name], capture_output=True, text=True)
            _, said, told = self.java(f"folder=same/{name}", name)
            self.demand(f"{name} prints the same with the recorder", said == plain.stdout and not re.search("recorder:", told), said + told)


def test(home):
    with tempfile.TemporaryDirectory() as room:
        edges = Edges(home, room)
        for part in (edges.words, edges.other_jdks, edges.values, edges.limits, edges.later_runs, edges.jar_and_module, edges.hangs, edges.many, edges.same_output):
            part()
            sys.stdout.flush()
    print(f"the agent: {edges.count} demands, {len(edges.failures)} fail")
    return len(edges.failures)
