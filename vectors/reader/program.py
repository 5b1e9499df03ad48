"""Programs: their functions and instructions, the kinds of operands, and what each instruction pops and pushes."""
import collections

# The operands of each instruction, from the left.
OPERANDS = {
    "push": ("value",), "pop": (), "dup": (), "swap": (), "load": ("local",), "store": ("local",),
    "add": (), "sub": (), "mul": (), "lt": (), "eq": (), "div": ("label",),
    "jmp": ("label",), "jz": ("label",), "times": ("bound",), "next": (),
    "open": ("slot", "joiner", "timed"), "fork": ("slot", "function", "handle"),
    "join": ("slot", "edge", "edge", "label"), "close": ("slot",), "cancelled": ("slot",),
    "case": ("slot", "label", "label"), "get": ("slot",), "except": ("slot",),
    "tally": ("slot", "state"), "total": ("slot",), "forget": ("slot",),
    "bind": ("key",), "unbind": (), "read": ("key",), "bound": ("key",), "orelse": ("key",),
    "interrupted": (), "ret": (), "fail": (),
}

# How many operands each instruction pops, and how many it pushes. `fork` pops the arguments, and `join` may push one.
STACK = {
    "push": (0, 1), "pop": (1, 0), "dup": (1, 2), "swap": (2, 2), "load": (0, 1), "store": (1, 0),
    "add": (2, 1), "sub": (2, 1), "mul": (2, 1), "lt": (2, 1), "eq": (2, 1), "div": (2, 1),
    "jmp": (0, 0), "jz": (1, 0), "times": (1, 0), "next": (0, 0),
    "open": (0, 0), "fork": (0, 0), "join": (0, 0), "close": (0, 0), "cancelled": (0, 1),
    "case": (0, 0), "get": (0, 1), "except": (0, 1), "tally": (0, 1), "total": (0, 1), "forget": (0, 0),
    "bind": (1, 0), "unbind": (0, 0), "read": (0, 1), "bound": (0, 1), "orelse": (1, 1),
    "interrupted": (0, 1), "ret": (1, 0), "fail": (1, 0),
}

CAN_FAIL = ("all", "any", "awaitok")  # The joiners whose `join` needs a label for failed.
GIVES_NUMBER = ("all", "until")  # The joiners whose `join` pushes the number of subtasks.

SCOPE_SLOT = ("fork", "join", "close", "tally", "total")  # Instructions on a scope that the task owns.
SUBTASK_SLOT = ("case", "get", "except", "forget")  # Instructions on a subtask.
NO_FALL = ("jmp", "ret", "fail")  # Instructions that never go on to the next place.

MOST_OPERANDS, MOST_LOOPS, MOST_OPEN, SLOTS = 32, 8, 16, 16

# Its labels are places, a function is its number, and `-` and `_` are None.
Instruction = collections.namedtuple("Instruction", "word operands")
# `what` and `number` are those of `until`.
Joiner = collections.namedtuple("Joiner", "kind what number")


class Function:
    """A function with its instructions."""

    def __init__(self, name, args, needs):
        self.name, self.args, self.needs, self.code = name, args, needs, []

    def matches(self):
        """Returns for each `times` that has one the place of its `next`."""
        found, open_ = {}, []
        for place, it in enumerate(self.code):
            if it.word == "times":
                open_.append(place)
            elif it.word == "next" and open_:
                found[open_.pop()] = place
        return found


class Program:
    """A profile and functions, the last of which is `main`."""

    def __init__(self, profile, functions):
        self.profile, self.functions = profile, functions

    def pops(self, it):
        """Returns how many operands an instruction pops."""
        return self.functions[it.operands[1]].args if it.word == "fork" else STACK[it.word][0]


def labels(it):
    """Returns the places that the labels of an instruction name."""
    kinds = OPERANDS[it.word]
    return [place for kind, place in zip(kinds, it.operands) if kind in ("label", "edge") and place is not None]
