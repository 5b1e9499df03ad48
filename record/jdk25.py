#!/usr/bin/env python3
"""Prints the folder of a JDK 25, as jdk/check.py finds it. The status is 3 if there is none."""
import os
import sys

sys.path.append(os.path.join(os.path.dirname(os.path.dirname(os.path.realpath(__file__))), "jdk"))
from player import find_jdk  # noqa: E402

NO_JDK = 3

if __name__ == "__main__":
    home = find_jdk()
    if home is None:
        print("no JDK 25 was found (JAVA_HOME, java, or among the installed ones)", file=sys.stderr)
        sys.exit(NO_JDK)
    print(home)
