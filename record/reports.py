"""What record/look prints of a recording, of several of one handler, and of one that hangs."""
import collections
import os
import re

import judged
import runs
import texts
from looking import options
from named import Shown
from states import Full
from story import Story

MOST_STORY, MOST_CHECKED = 60, 50  # lines; recordings


def write(path, content):
    with open(path, "w") as file:
        file.write(content)
    return path


def plural(count, word):
    return f"{count} {word}{'' if count == 1 else 's'}"


class Report:
    def __init__(self, programs, asked=None):
        self.programs, self.asked = programs, asked

    def section(self, title, lines):
        print(title)
        for line in lines:
            print(f"  {line}".rstrip())

    # ---- the misuse and the other ends

    def misuse(self, path, text):
        """Returns what the verifier says of a text, by the Java line."""
        said, shown = self.programs.explain(path), Shown(text)
        if said[0] == "accepted":
            return ["No misuse: the verifier accepts the text."] + [self.java(it, shown) for it in said[1:]]
        return [self.java(it, shown) for it in said]

    @staticmethod
    def java(line, shown):
        m = re.match(r"(refused \w+ in|(?:.*): in) (\w+), line (\d+): (.*)$", line)
        if not m:
            return line
        where = shown.lines.get(int(m[3])) or f"line {m[3]}"
        return f"{m[1]} {shown.function(m[2])}, {where}: {m[4]}"

    def other_ends(self, text, came):
        """Returns the lines of the ends that `look ends` finds, and the numbers of those that no recording came to."""
        path, shown = self.search_path(), Shown(text)
        found = self.programs.ends(path, self.options)
        lines, others = [], []
        for number, words, search in found.ends:
            end = shown.fault(words) if words.startswith("fault") else shown.end(words)
            count = came.get(end)
            lines.append(f"{end}{f'   (recorded, {count} times)' if count and count > 1 else '   (recorded)' if count else ''}")
            if not count:
                others.append((number, end, search))
        lines.sort(key=lambda it: ("(recorded" not in it, "not recorded" in it, it))
        lines += [f"{it}   (recorded, but not found)" for it in came if it not in [line.split("   (")[0] for line in lines]]
        return lines + [self.reach(found)], sorted(others, key=lambda it: (it[1].startswith("not recorded"), it[1]))

    def reach(self, found):
        """Says whether these are all ends. How many states that took isn't said, since it depends on how `look` searches."""
        return "These are all: the search saw all schedules." if found.is_whole else f"The search stopped at {self.options[1]} states, and random schedules added to it: there may be other ends."

    def pictures(self, others):
        """Draws runs that come to other ends."""
        path = self.search_path()
        for count, (number, end, search) in enumerate(others[:self.asked.pictures], 1):
            base = f"{self.base()}.other{count}"
            self.programs.trace(path, search, number, f"{base}.trace")
            yield f"{write(f'{base}.svg', self.programs.draw(path, f'{base}.trace'))}   {end}"

    def search_path(self):
        return f"{self.base()}.ends.sts"


class Single(Report):
    """One recording."""

    def __init__(self, programs, asked, recording):
        super().__init__(programs, asked)
        self.recording, self.options = recording, options([recording], asked.most)
        self.text, self.trace, self.made = texts.replayed(recording)
        self.files = write(f"{self.base()}.sts", self.text), write(f"{self.base()}.trace", self.trace)

    def base(self):
        return self.recording.path[:-len(".rec")]

    def show(self):
        it = self.recording
        count = runs.counts(os.path.dirname(it.path) or ".").get(it.name, 1)
        print(f"{it.site.line} {it.site.method}: {plural(len(it.tasks), 'task')}, {plural(len(it.scopes), 'scope')}"
              + (f"; equal in {count} runs" if count > 1 else ""))
        wrong = self.wrong()
        self.section("Did the JDK do what the rules say?", self.agreement(wrong))
        story = list(Story(it, self.made).lines())
        more = [f"  .. {len(story) - MOST_STORY} more events"] if len(story) > MOST_STORY else []
        self.section("The story", story[:MOST_STORY] + more)
        self.search()
        return 1 if wrong else 0

    def wrong(self):
        """Returns what differs from the rules. If an event doesn't count, the ends are those after all events."""
        fault = judged.fault_of(self.recording)
        if fault:
            said = self.programs.replay(*self.files)[0][0]
            return [] if said.startswith(f"fault {fault[0]} task {fault[1]} ") else [f"in Java a fault {fault[0]} of task {fault[1]}, by the rules {said}"]
        told = self.programs.told(*self.files)
        if not told.idle:
            return judged.wrong_ends(self.recording, self.made, told.tasks)
        return [told.idle, *judged.wrong_ends(self.recording, self.made, self.programs.states(*self.files))]

    def agreement(self, wrong):
        if wrong:
            noted = judged.noted(self.recording)
            yield "No." + (f" It is a known difference: {', '.join(sorted(noted))} (docs/JDK.md)." if noted else " docs/JDK.md has the known differences.")
            yield from wrong[:5]
        elif judged.fault_of(self.recording):
            op = self.recording.fault()
            yield f"Yes: a misuse, {op.fault} at {op.site.line}. The recording ends there."
        else:
            yield f"Yes: {plural(len(self.recording.tasks), 'task')} {'end' if len(self.recording.tasks) > 1 else 'ends'} as recorded," \
                  f" and each of {plural(self.trace.count(chr(10)), 'event')} counts."
        yield from (line[2:] for line in self.text.splitlines() if re.match(r"; (unfinished|left out|questions)", line))

    def search(self):
        try:
            text, made = texts.searched([self.recording])
        except Full as full:
            self.section("Every end", [f"The text for a search can't be written: {full}"])
            return
        self.section("The calls", self.misuse(write(self.search_path(), text), text))
        lines, others = self.other_ends(text, ends_of([self.recording], made, text))
        self.section("Every end, over all schedules, if the tasks do what was recorded", lines)
        self.section("Pictures", [f"{write(f'{self.base()}.svg', self.programs.draw(*self.files))}   this run", *self.pictures(others)])


def ends_of(recordings, made, text):
    """Returns how often the recordings came to each end, by its name."""
    shown, found = Shown(text), collections.Counter()
    for it in recordings:
        count = runs.counts(os.path.dirname(it.path) or ".").get(it.name, 1)
        end = it.tasks[0].end()
        if end is not None and it.tasks[0] in made.expected:
            found[shown.end(f"{'success' if made.root_ways[it] == 'ret' else 'failed'} {made.expected[it.tasks[0]]}")] += count
        elif it.fault():
            found[f"{it.fault().fault} of {it.fault().kind} at {it.fault().site.line}"] += count
    return found


class Joined(Report):
    """Several recordings of one handler."""

    def __init__(self, programs, asked, recordings):
        super().__init__(programs, asked)
        self.recordings, self.options = recordings, options(recordings, asked.most)
        self.text, self.made = texts.searched(recordings)

    def base(self):
        first = self.recordings[0]
        name = re.sub(r"[^A-Za-z0-9]", "_", first.site.line.replace(".java", ""))
        return os.path.join(os.path.dirname(first.path), name)

    def show(self):
        first = self.recordings[0]
        came = ends_of(self.recordings, self.made, self.text)
        print(f"{first.site.line} {first.site.method}: {len(self.recordings)} different recordings of {sum(came.values())} runs, joined")
        wrong = self.wrong()
        self.section("Did the JDK do what the rules say?", wrong or [f"Yes: each task ends as recorded, and each event counts{self.checked()}."])
        lines = [it[2:] for it in self.text.splitlines() if it.startswith("; left out")]
        lines += [f"the program decides by itself at {it}" for it in sorted(self.made.dice)]
        if lines:
            self.section("The text", lines)
        self.section("The calls", self.misuse(write(self.search_path(), self.text), self.text))
        ends, others = self.other_ends(self.text, came)
        self.section("Every end, over all schedules, if the tasks do what was recorded", ends)
        self.section("Pictures", list(self.pictures(others)) or ["none: no other end"])
        return 1 if wrong else 0

    def checked(self):
        return "" if len(self.recordings) <= MOST_CHECKED else f" in the first {MOST_CHECKED} recordings"

    def wrong(self):
        """Returns the recordings that differ from the rules, each with the first thing that differs."""
        lines = []
        for it in self.recordings[:MOST_CHECKED]:
            wrong = Single(self.programs, self.asked, it).wrong()
            if wrong:
                known = ", ".join(sorted(judged.noted(it)))
                lines.append(f"No: {it.name}, {wrong[0]}" + (f" (a known difference: {known})" if known else ""))
        return lines


class Hang(Report):
    """Where each task of an unfinished recording is."""

    def __init__(self, programs, recording):
        super().__init__(programs)
        self.recording = recording

    def show(self):
        text, trace, _ = texts.replayed(self.recording)
        base, shown = self.recording.path[:-len(".rec")], Shown(text)
        print(f"{self.recording.site.line} {self.recording.site.method}: {self.recording.unfinished}")
        for line in self.programs.explain(write(f"{base}.sts", text), write(f"{base}.trace", trace)):
            m = re.match(r"task (\d+) in (\w+), line (\d+): (.*?) \((.*)\)$", line)
            print(f"  {self.place(m, shown)}" if m else line)
        return 0

    def place(self, m, shown):
        task = self.recording.tasks[int(m[1])]
        where = task.pending_site.line if task.pending else task.where or task.site.line
        waits = m[5] if m[5].startswith("waits") else "at work"
        return f"task {m[1]}, {shown.function(m[2])}, is at {where}: {re.sub(r' for (.*)', lambda it: ' for ' + self.people(it[1]), waits)}"

    def people(self, numbers):
        return ", ".join(f"task {it}" for it in numbers.split())
