#!/bin/sh
# Builds record/recorder.jar with a JDK 25 alone: $JAVA_HOME, java, or one among the installed JDKs.
set -e
cd "$(dirname "$0")"
home=$(python3 jdk25.py) || exit 3
classes=$(mktemp -d)
trap 'rm -rf "$classes"' EXIT
"$home/bin/javac" --release 25 --enable-preview -Xlint:all,-preview -d "$classes" src/recorder/*.java
# (an older JDK has to load these two, to say that it is none that the recorder knows)
"$home/bin/javac" --release 17 -Xlint:all -d "$classes" src/recorder/Agent.java src/recorder/Words.java
printf 'Premain-Class: recorder.Agent\nAgent-Class: recorder.Agent\nMain-Class: recorder.Agent\n' > "$classes/manifest"
"$home/bin/jar" --create --file "$classes/recorder.jar" --manifest "$classes/manifest" -C "$classes" recorder
mv "$classes/recorder.jar" recorder.jar    # a JVM that runs keeps the old file
