#!/usr/bin/env python3
"""Times scopes in Java without the recorder, with one that records nothing, and with one that records.  usage: record/bench.py [ROUNDS]

The kinds run by turns, so that they meet the same slow and fast minutes. The least time of each kind counts. If there is a C compiler,
an agent in C shows what makes virtual threads slower.
"""
import os
import re
import shutil
import subprocess
import sys
import tempfile

HERE = os.path.dirname(os.path.realpath(__file__))
sys.path.insert(0, HERE)
import jdk25  # noqa: E402
from player import ONE_CARRIER  # noqa: E402

OPTIONS = f"@{HERE}/options"
EMPTY = "public class Empty { public static void premain(String words) {} }"
# An agent that does nothing, and one that asks for the interface of JVMTI, with no capability, and gives it back at once.
IDLE = "#include <jvmti.h>\nJNIEXPORT jint JNICALL Agent_OnLoad(JavaVM *vm, char *words, void *none) { return 0; }\n"
ASKS = """#include <jvmti.h>
JNIEXPORT jint JNICALL Agent_OnLoad(JavaVM *vm, char *words, void *none) {
    jvmtiEnv *env;
    return (*vm)->GetEnv(vm, (void **)&env, JVMTI_VERSION_11) || (*env)->DisposeEnvironment(env);
}
"""


def kinds(room, home):
    """Returns the options of the JVM for each kind."""
    def recorder(words):
        return f"-javaagent:{HERE}/recorder.jar={words},folder={room}/r"
    found = {"no agent": [], "an empty agent": [f"-javaagent:{room}/empty.jar"]}
    found |= {name: [f"-agentpath:{room}/{of}.so"] for name, of in (("an idle agent in C", "idle"), ("one that asks for JVMTI", "asks")) if in_c(room, home)}
    for name, words in (("records nothing (most=0)", "most=0"), ("records no scope of these (every=1000000)", "every=1000000"), ("records", "most=1000000")):
        found[name], found[f"{name}, with `record/options`"] = [recorder(words)], [recorder(words), OPTIONS]
    return found


def in_c(room, home):
    """Builds the agents in C, and returns whether there is a compiler."""
    compiler = shutil.which("cc")
    for name, text in (("idle", IDLE), ("asks", ASKS)):
        with open(f"{room}/{name}.c", "w") as file:
            file.write(text)
        if compiler:
            include = [f"-I{home}/include", f"-I{home}/include/{'darwin' if sys.platform == 'darwin' else 'linux'}"]
            subprocess.run([compiler, "-shared", "-fPIC", *include, "-o", f"{room}/{name}.so", f"{room}/{name}.c"], check=True)
    return compiler


def main():
    rounds, home = int(sys.argv[1]) if len(sys.argv) > 1 else 8, jdk25.find_jdk()
    if home is None:
        print("no JDK 25 was found, so nothing was timed")
        return jdk25.NO_JDK
    java, javac, jar = (os.path.join(home, "bin", it) for it in ("java", "javac", "jar"))
    subprocess.run([f"{HERE}/build.sh"], check=True, capture_output=True)
    least = {}
    with tempfile.TemporaryDirectory() as room:
        for name, text in (("Empty.java", EMPTY), ("manifest", "Premain-Class: Empty\n")):
            with open(f"{room}/{name}", "w") as file:
                file.write(text)
        subprocess.run([javac, "--release", "25", "--enable-preview", "-d", room, f"{HERE}/Bench.java", f"{room}/Empty.java"], check=True, capture_output=True)
        subprocess.run([jar, "--create", "--file", f"{room}/empty.jar", "--manifest", f"{room}/manifest", "-C", room, "Empty.class"], check=True)
        timed = kinds(room, home)
        for _ in range(rounds):
            for kind, options in timed.items():
                said = subprocess.run([java, *options, *ONE_CARRIER, "--enable-preview", "-cp", room, "Bench"], capture_output=True, text=True).stdout
                for what, time in re.findall(r"^(.*): ([0-9.]+)", said, re.M):
                    least[kind, what] = min(float(time), least.get((kind, what), float("inf")))
                subprocess.run(["rm", "-rf", f"{room}/r"], check=True)
    for kind in timed:
        print(f"| {kind} | " + " | ".join(f"{time:.1f} ({time / least['no agent', what]:.2f})" for (of, what), time in least.items() if of == kind) + " |")
    return 0


if __name__ == "__main__":
    sys.exit(main())
