"""How `look` names a place of a program, and the beginnings of a trace. Several checks use them."""
import os
import re


def beginnings(folder, events):
    """Yields the path of a file with each beginning of the events, the empty one first."""
    path = os.path.join(folder, "trace")
    for count in range(len(events) + 1):
        with open(path, "w") as file:
            file.write("".join(events[:count]))
        yield path


def instructions(source):
    """Returns the number and the words of the line of each instruction of each function of a text, by the function's name."""
    found, name = {}, ""
    for number, line in enumerate(source.split("\n"), 1):
        words = line.split(";")[0].split()
        if words[:1] == ["func"]:
            name = words[1]
            found[name] = []
        elif words and words[0] not in ("end", "profile") and not words[0].endswith(":"):
            found[name].append((number, " ".join(words)))
    return found


def place_words(source, name, pc):
    """Returns how a place of a function is named by a line of the text."""
    lines = instructions(source)[name]
    return f"{name}, line {lines[pc][0]}: {lines[pc][1]}" if pc < len(lines) else f"{name}, at its end"


def at_line(source, name, pc):
    """Returns how `view` names the line of the instruction at a place of a function."""
    lines = instructions(source)[name]
    return f"line {lines[pc][0]}" if pc < len(lines) else "its end"


def with_lines(source, viewed):
    """Returns what `view` prints of a text without names, from the same without the lines of the text."""
    def placed(found):
        _, name, place, words = found.groups()
        if words.split(" ")[1:2] in (["success"], ["failed"], ["unheard"]):
            return f"{found[1]} in {name} at {place}, after {at_line(source, name, int(place) - 1)}{words}"
        return f"{found[1]} in {name} at {place}, {at_line(source, name, int(place))}{words}"

    return re.sub(r"^(task \d+ under \S+|fault \w+ task \d+) in (\S+) at (\d+)(.*)$", placed, viewed, flags=re.M)


def without_lines(viewed):
    """Returns what `view` prints of a text without names, without the lines of the text."""
    return re.sub(r"^((?:task|fault) .* at \d+), (?:(?:after )?line \d+|its end)", r"\1", viewed, flags=re.M)
