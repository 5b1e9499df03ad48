"""Answers a call of ./sts or ./look that no build helps, with the status and the output of the program.

    python3 -m checks answer NAME [--unproved] [WORD..]

NAME is `sts` or `look`. The launcher calls this before it starts a build. The status is 75 if the call needs the program.
Otherwise the call is answered here: it asks for help or for the version, its words are mistaken, a file isn't there or
can't be read, or the kit that builds the program isn't there. Which words a command takes is read from its page in
checks/help. A mistake that this script doesn't know, such as a number that is too large, is left to the program.
"""
import collections
import os
import re
import shutil
import stat
import sys
from checks.programs import ROOT

BUILD = 75
MISTAKEN, OUTSIDE = 2, 6
MORE = "\nFor more information, try '--help'.\n"
OF_AN_OPTION = re.compile(r"^ +(?:-\w, )?(--[\w-]+)((?: <[^>]+>)*)  ", re.M)
NO_KIT = """{name}: rt is not installed, or not on PATH: {name} is built by the Rattle kit, whose command that is
{name}: README.md#build-and-test says who gives you the kit
{name}: without the kit this works: python3 vectors/reader vectors/*.jsonl
"""
TRACE_HINT = "`./look ends FILE --trace 1 TRACE` and `./sts run FILE --workers 2 --trace TRACE` write a trace.\n"
MISPLACED = "{name}: --unproved has to be the first word, as in ./{name} --unproved COMMAND FILE\n"
# The files that a call reads: which of its FILEs, and which of its options.
READ = {"plain": (2, []), "replay": (2, []), "view": (2, []), "draw": (2, []), "tell": (2, []), "explain": (2, []), "run": (1, ["--outside"])}

# What is said of a call: its status, standard output and standard error.
Answer = collections.namedtuple("Answer", "status printed told", defaults=("", ""))


class Command:
    """A command, as its page in checks/help describes it."""

    def __init__(self, name, command):
        self.page = page(f"{name}.{command}")
        self.usage = re.search(r"^Usage: (.*)$", self.page, re.M)[1]
        self.start = f"{name} {command}"
        self.options = {option: (f"{option}{values}", values.count("<")) for option, values in OF_AN_OPTION.findall(self.page)}
        words = self.usage[len(self.start):].replace("[OPTIONS]", "")
        self.needed = re.findall(r"--[\w-]+ <[^>]+>", words)
        for it in self.needed:
            words = words.replace(it, "")
        self.files = re.findall(r"<[^>]+>|\[[^]]+\]", words)


def page(name):
    """Returns a page of checks/help, or None if there is none of this name."""
    path = f"{ROOT}/checks/help/{name}.txt"
    if not re.fullmatch(r"[\w.-]+", name) or not os.path.exists(path):
        return None
    with open(path) as file:
        return file.read()


def help_of(name, text):
    """Returns the answer to a call for help: `sts` writes it to standard error, and `look` to standard output."""
    return Answer(0, text) if name == "look" else Answer(0, "", text)


def mistaken(what, usage=None):
    """Returns the answer to words that are mistaken."""
    return Answer(MISTAKEN, "", f"error: {what}\n{f'{chr(10)}Usage: {usage}{chr(10)}' if usage else ''}{MORE}")


def unknown(name, command):
    return mistaken(f"unrecognized subcommand '{command}'", f"{name} <COMMAND>")


def read_words(name, command, words):
    """Reads the words behind a command. Returns an answer, or the files and the options among the words."""
    files, options, words, is_option = [], {}, list(words), True
    while words:
        word = words.pop(0)
        if is_option and word == "--":
            is_option = False
        elif is_option and word in ("-h", "--help"):
            return help_of(name, command.page), None, None
        elif is_option and word.startswith("-") and word != "-":
            option, has_value, value = word.partition("=")
            if word == "--unproved":
                return Answer(MISTAKEN, "", MISPLACED.format(name=name)), None, None
            if option not in command.options or option in options:
                return None, None, None
            shown, count = command.options[option]
            values = [value] if has_value else words[:count]
            if not has_value and count == 1 and not values:
                return mistaken(f"a value is required for '{shown}' but none was supplied"), None, None
            if len(values) < count or any(it.startswith("-") for it in values):
                return None, None, None
            options[option] = values
            del words[: 0 if has_value else count]
        elif len(files) == len(command.files):
            return mistaken(f"unexpected argument '{word}' found", command.usage), None, None
        else:
            files.append(word)
    return None, files, options


def missing(command, files, options):
    """Returns the answer to a call that lacks words, or None."""
    lacks = [it for it in command.needed if it.split()[0] not in options]
    lacks += [it for it in command.files[len(files):] if it.startswith("<")]
    if not lacks:
        return None
    lines = "".join(f"\n  {it}" for it in lacks)
    usage = " ".join([command.start, *command.needed, *(it for it in command.files if it.startswith("<"))])
    answer = mistaken(f"the following required arguments were not provided:{lines}", usage)
    return answer._replace(told=answer.told + TRACE_HINT) if "<TRACE>" in lacks else answer


def unreadable(name, path):
    """Returns the answer to a file that can't be read, or None. What `-` means, the program decides."""
    if path == "-":
        return None
    try:
        is_folder = stat.S_ISDIR(os.stat(path).st_mode)
        why = "it is a directory" if is_folder else None if os.access(path, os.R_OK) else "permission is denied"
    except FileNotFoundError:
        why = "there is no such file"
    except PermissionError:
        why = "permission is denied"
    if not why:
        return None
    return Answer(OUTSIDE, "error file\n", f"{name}: cannot read {path}: {why}\n")


def of_command(name, command, words):
    """Returns the answer to a command with these words behind it, or None if the program has to answer."""
    answer, files, options = read_words(name, command, words)
    if answer or files is None:
        return answer
    count, reading = READ.get(command.start.split()[1], (1, []))
    paths = [*files[:count], *(options[it][0] for it in reading if it in options)]
    return missing(command, files, options) or next(filter(None, (unreadable(name, it) for it in paths)), None)


def of_words(name, words):
    """Returns the answer to the words of a call, or None if the program has to answer."""
    if not words:
        commands = re.findall(r"^  ([a-z]+)  ", page(name), re.M)
        none = f"'look' requires a subcommand but one was not provided\n  [subcommands: {', '.join(commands)}]"
        return mistaken(none, "look <COMMAND>") if name == "look" else None
    first, rest = words[0], words[1:]
    if first in ("-V", "--version"):
        with open(f"{ROOT}/VERSION") as file:
            return Answer(0, f"{name} {file.read()}")
    if first in ("-h", "--help") or words == ["help"]:
        return help_of(name, page(name))
    if first == "help" and len(rest) == 1:
        text = page(f"{name}.{rest[0]}")
        return help_of(name, text) if text else unknown(name, rest[0])
    if first == "help" or first.startswith("-"):
        return None
    return of_command(name, Command(name, first), rest) if page(f"{name}.{first}") else unknown(name, first)


def without_kit(name, words):
    """Returns the answer to a call that needs a program which can't be built, or None."""
    if shutil.which("rt"):
        return None
    told = NO_KIT.format(name=name)
    return Answer(OUTSIDE, "", told if words else f"{told}\n{page(name)}")


def main():
    name, words = sys.argv[1], sys.argv[2:]
    if words[:1] == ["--unproved"]:
        del words[0]
    try:
        answer = of_words(name, words) or without_kit(name, words)
        if not answer:
            return BUILD
        sys.stderr.write(answer.told)
        sys.stdout.write(answer.printed)
        sys.stdout.flush()
        return answer.status
    except (OSError, UnicodeError):  # (the stream is closed, or a word is no text: the program says it)
        return BUILD
