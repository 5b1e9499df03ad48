"""The program checks C1 to C7, in their order."""
from program import OPERANDS, labels
from text import NAME, TextFault

MOST_FUNCTIONS, MOST_INSTRUCTIONS, MOST_ARGUMENTS = 64, 4096, 8
SMALL = range(0, 16)  # Slots, locals and keys.
BOUND = range(1, 10_001)
COUNT = range(1, 65_537)


def fails(check, function=0, place=0):
    raise TextFault(fault="A9", check=check, function=function, place=place)


def in_range(kind, operand):
    """Returns whether an operand is in the range of its kind."""
    if kind in ("slot", "local", "key") or kind == "handle" and operand is not None:
        return operand in SMALL
    if kind == "bound":
        return operand in BOUND
    return kind != "joiner" or operand.what not in ("failed", "success") or operand.number in COUNT


def check_instruction(number, place, function, it):
    if any(target >= len(function.code) for target in labels(it)):
        fails("C3", number, place)
    if it.word == "fork" and it.operands[1] >= number:
        fails("C4", number, place)
    if not all(map(in_range, OPERANDS[it.word], it.operands)):
        fails("C6", number, place)


def check_function(number, function, earlier):
    if len(function.code) > MOST_INSTRUCTIONS:
        fails("C2", number)
    if not NAME.fullmatch(function.name) or function.args > MOST_ARGUMENTS or not function.code:
        fails("C6", number)
    if function.name in earlier:
        fails("C7", number)
    for place, it in enumerate(function.code):
        check_instruction(number, place, function, it)


def check(program):
    """Raises the first check that fails."""
    functions = program.functions
    if len(functions) > MOST_FUNCTIONS:
        fails("C1")
    for number, function in enumerate(functions):
        check_function(number, function, [it.name for it in functions[:number]])
    if not functions or functions[-1].name != "main" or functions[-1].args or functions[-1].needs:
        fails("C5")
