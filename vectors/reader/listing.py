"""The listing of a program."""
from program import OPERANDS, labels


def operand(program, kind, it):
    """Returns the words of an operand."""
    if kind in ("slot", "handle"):
        return "_" if it is None else f"s{it}"
    if kind in ("label", "edge"):
        return "-" if it is None else f"L{it}"
    if kind == "function":
        return program.functions[it].name
    if kind == "joiner":
        return " ".join(str(part) for part in it if part is not None)
    if kind == "timed":
        return "timed" if it else ""
    return str(it)


def instruction(program, it):
    """Returns an instruction, its words with one space between them."""
    words = [it.word, *(operand(program, kind, of) for kind, of in zip(OPERANDS[it.word], it.operands))]
    return " ".join(word for word in words if word)


def head(function):
    needs = "".join(f" {key}" for key in sorted(function.needs))
    return f"func {function.name} {function.args}" + (f" needs{needs}" if needs else "")


def lines(program):
    """Yields the lines of a listing."""
    if program.profile == 2:
        yield "profile 2"
    for function in program.functions:
        targets = {place for it in function.code for place in labels(it)}
        yield head(function)
        for place, it in enumerate(function.code):
            if place in targets:
                yield f"L{place}:"
            yield f"  {instruction(program, it)}"
        yield "end"


def listing(program):
    return "".join(f"{line}\n" for line in lines(program))
