#!/usr/bin/env python3
"""Writes the texts and traces of the benchmarks into a folder.  usage: make_texts.py FOLDER"""
import os
import sys

MOST_BYTES = 1_048_576
MOST_INSTRUCTIONS = 4_096


def lines(short):
    """A text of lines, written with ' / ' between them."""
    return "".join(line.strip() + "\n" for line in short.split(" / "))


def write(folder, name, text):
    with open(os.path.join(folder, name), "w") as file:
        file.write(text)


def local_body(instructions):
    """This number of local instructions, which is even."""
    return "push 1\n" + "dup\nlt\n" * ((instructions - 2) // 2) + "ret\n"


def straight(functions=64):
    """As many local instructions as this number of functions may have. A program may have 64."""
    body = local_body(MOST_INSTRUCTIONS)
    parts = [f"func part{i} 0\n{body}end\n" for i in range(functions - 1)]
    return "".join(parts) + f"func main 0\n{body}end\n"


def block(i):
    """A scope with two subtasks, both read, a loop and a binding."""
    return lines(
        f"open s1 all / push 4 / bind 2 / push 3 / times 3 / read 2 / store 0 / next / unbind / push {i} / fork s1 leaf s2 / "
        f"push 2 / fork s1 leaf s3 / join s1 bad{i} - intr{i} / pop / get s2 / get s3 / add / store 1 / close s1 / jmp on{i} / "
        f"bad{i}: / store 2 / close s1 / jmp on{i} / intr{i}: / close s1 / on{i}:"
    )


def scopes(parts=62):
    """As many functions of scopes, branches, loops and bindings as fit into a text, and no more than this number."""
    text = "func leaf 1\nload 0\nret\nend\n"
    ending = "push 0\nret\nend\n"
    for name in [f"part{i}" for i in range(parts)]:
        body = "".join(block(i) for i in range(150))
        if len(text) + len(body) > MOST_BYTES - 1_000:
            break
        text += f"func {name} 0\n{body}{ending}"
    return text + "func main 0\n" + ending


LOOP = lines(
    "func main 0 / push 50 / times 50 / push 1800 / times 1800 / load 0 / push 3 / mul / push 1 / add / store 0 / "
    "load 0 / push 7 / lt / pop / next / next / load 0 / ret / end"
)


def fan_out(outer, inner):
    """Returns a program of outer times inner scopes in a row, with one short subtask each."""
    return lines(
        f"func kid 0 / push 0 / ret / end / func main 0 / push {outer} / times {outer} / push {inner} / times {inner} / open s0 awaitall / "
        "fork s0 kid _ / join s0 - - intr / close s0 / jmp on / intr: / close s0 / on: / next / next / push 5 / ret / end"
    )


# Forty subtasks of 23,436 local steps each, which several workers can do at once. In fan_out they gain nothing: its
# scopes come in a row, each with one short subtask.
FAN_OF_LOOPS = lines(
    "func work 1 / push 8 / times 8 / push 266 / times 266 / load 0 / push 3 / mul / push 1 / add / store 0 / "
    "load 0 / push 7 / lt / pop / next / next / load 0 / ret / end / func main 0 / open s0 awaitall / push 40 / times 40 / "
    "load 0 / push 1 / add / dup / store 0 / fork s0 work _ / next / join s0 - - intr / total s0 / close s0 / ret / "
    "intr: / push 0 / close s0 / fail / end"
)


def spin(steps):
    """Returns a loop of about this number of local steps: 2, and 5 for each turn."""
    return f"push {steps // 5} / times {steps // 5} / load 0 / push 1 / add / store 0 / next"


def polling(steps, times, tasks=4):
    """Returns a program of some subtasks. Each asks whether it is interrupted, and does local steps before each question."""
    return lines(
        f"func work 0 / push {times} / times {times} / {spin(steps)} / interrupted / pop / next / load 0 / ret / end / "
        f"func main 0 / open s0 awaitall / push {tasks} / times {tasks} / fork s0 work _ / next / join s0 - - intr / close s0 / push 1 / ret / "
        "intr: / push 0 / close s0 / fail / end"
    )


def subtasks(count, steps):
    """Returns a program of one scope with many subtasks, each with about this number of local steps."""
    work = spin(steps) if steps > 5 else "push 1 / pop"
    return lines(
        f"func work 0 / {work} / push 0 / ret / end / func main 0 / open s0 awaitall / push 10 / times 10 / "
        f"push {count // 10} / times {count // 10} / fork s0 work _ / next / next / join s0 - - intr / close s0 / push 1 / ret / "
        "intr: / push 0 / close s0 / fail / end"
    )


def fans(scopes, count, work):
    """Returns a program of scopes in a row, each with some subtasks that do this work."""
    return lines(
        f"func work 0 / {work} / push 0 / ret / end / func main 0 / push {scopes} / times {scopes} / open s0 awaitall / "
        f"push {count} / times {count} / fork s0 work _ / next / join s0 - - intr / close s0 / jmp go / intr: / close s0 / go: / next / "
        "push 1 / ret / end"
    )


def short_then_wide(scopes, count, work):
    """Returns a program of scopes with one short subtask each, and then a scope of some subtasks that do this work."""
    return lines(
        f"func kid 0 / push 0 / ret / end / func work 0 / {work} / load 0 / ret / end / "
        f"func main 0 / push {scopes} / times {scopes} / open s0 awaitall / fork s0 kid _ / join s0 - - intr / close s0 / jmp go / "
        f"intr: / close s0 / go: / next / open s0 awaitall / push {count} / times {count} / fork s0 work _ / next / "
        "join s0 - - stop / close s0 / push 3 / ret / stop: / push 0 / close s0 / fail / end"
    )


def burst(questions, steps, times):
    """Returns a program of three subtasks that poll. Meanwhile `main` asks very often whether it is interrupted."""
    return lines(
        f"func work 0 / push {times} / times {times} / {spin(steps)} / interrupted / pop / next / load 0 / ret / end / "
        "func main 0 / open s0 awaitall / push 3 / times 3 / fork s0 work _ / next / "
        f"push 10 / times 10 / push {questions // 10} / times {questions // 10} / interrupted / pop / next / next / "
        "join s0 - - intr / close s0 / push 1 / ret / intr: / push 0 / close s0 / fail / end"
    )


# Programs in which several workers may be slow: tasks that seldom leave the lock, short subtasks, long ones after short ones,
# scopes of few subtasks, and many turns of `main` while others do slices. As runs have a limit of steps, counts differ.
WORK = {
    "polling_50": polling(50, 3_500),
    "polling_500": polling(500, 440),
    "polling_5000": polling(5_000, 44),
    "subtasks_5": fans(10, 10_000, "push 1 / pop"),
    "subtasks_50": subtasks(15_000, 50),
    "subtasks_500": subtasks(1_800, 500),
    "subtasks_5000": subtasks(180, 5_000),
    "short_then_wide": short_then_wide(9_000, 8, f"push 10 / times 10 / {spin(8_000)} / next"),
    "short_then_500": short_then_wide(100, 1_700, spin(500)),
    "row_of_600": fans(1_300, 1, spin(600)),
    "fans_of_500": fans(430, 4, spin(500)),
    "one_long_task": polling(5_000, 170, 1),
    "burst": burst(100_000, 500, 280),
}


def chains(count, depth):
    """Returns a program of chains in a row. In a chain each scope has one subtask, which opens the next scope."""
    scope = "join s1 - - intr / close s1 / jmp on / intr: / close s1 / on:"
    inner = "".join(f"func f{i} 0 / open s1 awaitall / fork s1 f{i - 1} _ / {scope} / push 0 / ret / end / " for i in range(1, depth))
    return lines(
        f"func f0 0 / push 0 / ret / end / {inner}func main 0 / push {count} / times {count} / "
        f"open s1 awaitall / fork s1 f{depth - 1} _ / {scope} / next / push 1 / ret / end"
    )


# What jdk/ScopesBench.java does with the scopes of a JDK: scopes in a row, one wide scope, and chains of scopes.
SCOPES = {
    "short_scopes": fan_out(11, 10_000),
    "wide_scope": subtasks(60_000, 5),
    "chains": chains(1_000, 62),
}


def fan_out_trace(outer, inner):
    """Each subtask does its two steps as soon as it is forked."""
    steps = ["step 0\n" * 2]
    birth = 0
    for _ in range(outer):
        steps.append("step 0\n" * 2)
        for _ in range(inner):
            birth += 1
            steps.append("step 0\n" * 2 + f"step {birth}\n" * 2 + "step 0\n" * 4)
        steps.append("step 0\n")
    steps.append("step 0\n" * 2)
    return "".join(steps)


def chain(scopes):
    """Functions of 14 bindings, each a subtask of the next; the first opens this number of scopes, one by one."""
    binds = " / ".join(f"push {key} / bind {key}" for key in range(14))
    unbinds = " / ".join(["unbind"] * 14)
    ending = f"{unbinds} / push 0 / ret / end"
    text = lines(
        f"func f0 0 / {binds} / push 10 / times 10 / push {scopes // 10} / times {scopes // 10} / open s1 awaitall / "
        f"join s1 - - intr / close s1 / jmp on / intr: / close s1 / on: / next / next / {ending}"
    )
    depth = 20
    for i in range(1, depth):
        name = "main" if i == depth - 1 else f"f{i}"
        text += lines(
            f"func {name} 0 / {binds} / open s1 awaitall / fork s1 f{i - 1} _ / join s1 - - intr / close s1 / jmp on / "
            f"intr: / close s1 / on: / {ending}"
        )
    down = "".join(f"step {task}\n" * 30 for task in range(depth - 1))
    last = f"step {depth - 1}\n" * (28 + 2 + 10 * 3 + scopes * 5 + 16)
    up = "".join(f"step {task}\n" * 19 for task in reversed(range(depth - 1)))
    return text, down + last + up


def last_of_many(subtasks):
    """Reads the subtask that ended last, once for each subtask."""
    turns = subtasks // 10
    text = lines(
        f"func kid 0 / push 7 / ret / end / func main 0 / open s0 awaitall / push 10 / times 10 / push {turns} / times {turns} / "
        f"fork s0 kid _ / next / next / fork s0 kid s1 / join s0 - - intr / push 10 / times 10 / push {turns} / times {turns} / "
        f"get s1 / pop / next / next / close s0 / push 1 / ret / intr: / push 0 / close s0 / fail / end"
    )
    kids = "".join(f"step {birth}\n" * 2 for birth in range(1, subtasks + 2))
    return text, "step 0\n" * (1 + 2 + 30 + subtasks * 2 + 1) + kids + "step 0\n" * (1 + 2 + 30 + subtasks * 3 + 3)


def fifties(scopes):
    """Fifty subtasks in each of this number of scopes."""
    text = lines(
        f"func kid 0 / push 7 / ret / end / func main 0 / push {scopes} / times {scopes} / open s0 awaitall / push 50 / times 50 / "
        f"fork s0 kid _ / next / join s0 - - intr / close s0 / jmp on / intr: / close s0 / on: / next / push 1 / ret / end"
    )
    turns = ["step 0\n" * 2]
    for first in range(1, scopes * 50 + 1, 50):
        turns.append("step 0\n" * 103 + "".join(f"step {birth}\n" * 2 for birth in range(first, first + 50)) + "step 0\n" * 4)
    return text, "".join(turns) + "step 0\n" * 2


def never_run(scopes):
    """Fifty subtasks forked after the cancel, in each of this number of scopes."""
    text = lines(
        f"func kid 0 / push 7 / ret / end / func main 0 / push {scopes} / times {scopes} / open s0 any / fork s0 kid _ / push 50 / "
        f"times 50 / fork s0 kid _ / next / join s0 bad - intr / pop / close s0 / jmp on / bad: / pop / close s0 / jmp on / "
        f"intr: / close s0 / on: / next / push 1 / ret / end"
    )
    turns = ["step 0\n" * 2]
    for first in range(1, scopes * 51 + 1, 51):
        turns.append("step 0\n" * 2 + f"step {first}\n" * 2 + "step 0\n" * 107)
    return text, "".join(turns) + "step 0\n" * 2


def many_chains(count):
    """Chains of scopes side by side, all of them open at the end of the trace: then 61 tasks of each wait."""
    scope = "join s1 - - intr / close s1 / jmp on / intr: / close s1 / on:"
    inner = "".join(f"func f{i} 0 / open s1 awaitall / fork s1 f{i - 1} _ / {scope} / push 0 / ret / end / " for i in range(1, 62))
    text = lines(
        f"func f0 0 / push 0 / ret / end / {inner}func main 0 / open s1 awaitall / push {count} / times {count} / fork s1 f61 _ / next / "
        f"{scope} / push 1 / ret / end"
    )
    steps = ["step 0\n" * (3 + 2 * count)]
    # those of one depth are born one after another, that of the first chain first
    steps += [f"step {depth * count + chain + 1}\n" * 2 for depth in range(61) for chain in range(count)]
    return text, "".join(steps)


def one_function(instructions):
    """One accepted function of local instructions."""
    return f"func main 0\n{local_body(instructions)}end\n", ""


def unequal(instructions):
    """A function that is refused at its last place, where two ways meet with unequal heights."""
    pairs = "push 1\npop\n" * ((instructions - 4) // 2)
    return f"func main 0\npush 1\njz last\npush 5\n{pairs}last:\nret\nend\n", ""


def heavy(instructions):
    """A function with too many steps, in branches within a loop."""
    branches = "".join(f"push 1\njz on{i}\npush 2\npop\non{i}:\n" for i in range((instructions - 5) // 4))
    return f"func main 0\npush 10000\ntimes 10000\n{branches}next\npush 0\nret\nend\n", ""


# name, text and trace by the amount of work, and the least amount; each is made with 1, 2, 4 and 8 times that
GROWTH = [
    ("straight", lambda functions: (straight(functions), ""), 8),
    ("scopes", lambda parts: (scopes(parts), ""), 3),
    ("loop", lambda steps: (LOOP, "step 0\n" * steps), 125_000),
    ("turns", lambda steps: (LOOP, "step 0\n" * steps), 2_000),
    ("fan_out", lambda scopes: (fan_out(9, scopes), fan_out_trace(9, scopes)), 1_250),
    ("row", lambda scopes: (fan_out(1, scopes), fan_out_trace(1, scopes)), 1_250),
    ("many_chains", many_chains, 20),
    ("wide", lambda count: (subtasks(count, 5), ""), 7_500),
    ("one_function", one_function, 512),
    ("unequal", unequal, 512),
    ("heavy", heavy, 512),
    ("chain", chain, 10_000),
    ("last_of_many", last_of_many, 7_000),
    ("fifties", fifties, 1_200),
    ("never_run", never_run, 1_200),
]


MASK = 2**64 - 1


def folded(a, b):
    product = a * b
    return (product & MASK) ^ (product >> 64)


def fed(state, byte):
    """The state of the standard library's hasher of fixed seed after one byte more."""
    return folded(state ^ (byte | byte << 8 | byte << 16), 0x9E3779B97F4A7C15 ^ 2)


def colliding_names(count):
    """This number of names of seven bytes. By that hasher their hashes agree in ten low bits."""
    letters = b"abcdefghijklmnopqrstuvwxyz0123456789"
    start = folded(0x243F6A8885A308D3 ^ (7 | 0 << 32), 0x9E3779B97F4A7C15 ^ 16)
    names, states = [], [(b"x", fed(start, ord("x")))]
    for _ in range(5):
        states = [(name + bytes([c]), fed(state, c)) for name, state in states[:12_000] for c in letters]
    for name, state in states:
        for c in letters:
            if fed(state, c) & 1023 == 0:
                names.append((name + bytes([c])).decode())
                if len(names) == count:
                    return names
    raise SystemExit(f"only {len(names)} names")


MIXED_BY = 67  # by this sts_asm multiplies before it adds the next byte of a name


def one_bucket_names(count):
    """This number of names that the assembler's own mixing puts into one bucket of its 1,024."""
    letters = b"abcdefghijklmnopqrstuvwxyz0123456789"
    ends = {}
    for a in letters:
        for b in letters:
            ends.setdefault((a * MIXED_BY + b) % 1024, bytes([a, b]))
    names, number = [], 0
    while len(names) < count:
        name = b"x" + bytes(letters[number // 36**k % 36] for k in range(4))
        mixed = 0
        for byte in name:
            mixed = (mixed * MIXED_BY + byte) % 1024
        end = ends.get(-mixed * MIXED_BY * MIXED_BY % 1024)
        names += [(name + end).decode()] if end else []
        number += 1
    return names


def alike_names(count):
    """Names of 32 bytes, the longest possible, that differ only in their last bytes."""
    return [f"{'x' * 26}{i:06}" for i in range(count)]


def scope_of(forked, count, slot):
    """Returns the instructions of a function that forks so many subtasks under `all` and gives their sum."""
    forks = f"fork s{slot} {forked} _ / " * count
    return (f"open s{slot} all / {forks}join s{slot} bad - intr / total s{slot} / close s{slot} / ret / "
            f"bad: / close s{slot} / fail / intr: / close s{slot} / push 0 / fail / end")


def groups(count, subtasks):
    """Returns a program whose main forks so many groups, which fork so many subtasks each. All orders of their steps are searched."""
    leaf = "func leaf 0 / push 1 / push 2 / add / push 3 / add / ret / end"
    return lines(f"{leaf} / func group 0 / {scope_of('leaf', subtasks, 1)} / func main 0 / {scope_of('group', count, 0)}")


def ending(joiner, timed):
    """The lines from `join` on of a function that counts its successes, but gives what `any` gives."""
    failed = "bad" if joiner in ("all", "any", "awaitok") else "-"
    gives = "" if joiner.startswith("await") or joiner == "any" else "pop / "
    tally = "" if joiner == "any" else "tally s1 S / "
    bad = "bad: / close s1 / fail / " if failed == "bad" else ""
    late = "late: / close s1 / push 70 / fail / " if timed else ""
    return (f"join s1 {failed} {'late' if timed else '-'} intr / {gives}{tally}close s1 / ret / {bad}{late}"
            "intr: / close s1 / push 80 / fail / end")


def forks(name, head, joiner, timed, count, called, change="load 5 / push 1 / add / store 5 / "):
    """A function that forks so many subtasks in a loop, each with another argument unless `change` is empty."""
    opened = f"open s1 {joiner}{' timed' if timed else ''} / push {count} / times {count} / "
    return f"func {name} / {head}{opened}{change}load 5 / fork s1 {called} _ / next / {ending(joiner, timed)}"


def levels(counts):
    """Groups under `all timed`: main forks counts[0] of them, each forks counts[1], and so on; the last ones fork flaky subtasks."""
    text, called = FLAKY, "flaky"
    for level, count in reversed(list(enumerate(counts))):
        name, head = (f"group{level} 1", "load 0 / push 100 / mul / store 5 / ") if level else ("main 0", "")
        text += " / " + forks(name, head, "all", True, count, called)
        called = f"group{level}"
    return lines(text)


def dropped(count, subtasks):
    """Groups under `awaitall timed`, each with another argument. Main drops their results, so more groups have no more ends."""
    forked = f"push {count} / times {count} / load 5 / push 1 / add / store 5 / load 5 / fork s1 group1 _ / next"
    group = forks("group1 1", "load 0 / push 100 / mul / store 5 / ", "all", True, subtasks, "flaky")
    return lines(f"{FLAKY} / {group} / func main 0 / open s1 awaitall timed / {forked} / join s1 - late intr / close s1 / push 1 / ret / "
                 "late: / close s1 / push 70 / fail / intr: / close s1 / push 80 / fail / end")


# It succeeds with its argument, or it fails, if its scope expires or an interrupt comes.
FLAKY = (
    "func work 1 / load 0 / ret / end / func flaky 1 / open s1 all timed / load 0 / fork s1 work _ / join s1 bad late intr / pop / "
    "total s1 / close s1 / ret / bad: / close s1 / fail / late: / close s1 / load 0 / push 7 / add / fail / "
    "intr: / close s1 / load 0 / push 8 / add / fail / end"
)
# It succeeds or it fails, whichever of its two subtasks is first.
RACING = (
    "func one 0 / push 1 / ret / end / func two 0 / push 0 / ret / end / func racing 1 / open s1 any / fork s1 one _ / fork s1 two _ / "
    "join s1 bad - intr / close s1 / jz lost / load 0 / ret / lost: / push 9 / fail / bad: / close s1 / fail / intr: / close s1 / push 80 / fail / end"
)
JOINERS = ("all", "awaitok", "any", "awaitall", "until failed 3", "until success 3", "until atleast 40")
EQUAL = (1000, 2000, 3000)
GROUPS = ((25, 8), (50, 8), (100, 8), (200, 8), (10, 50), (20, 50), (40, 50))


def equal(text, called, timed, count):
    """A main that forks so many equal subtasks under `all`."""
    return lines(f"{text} / {forks('main 0', '', 'all', timed, count, called, '')}")


def powers(count):
    """Subtasks of 1, 2, 4 and so on. The scope may expire before any of them is in its total."""
    return lines(f"profile 2 / func kid 1 / load 0 / ret / end / func main 0 / open s1 awaitall timed / push 1 / store 5 / push {count} / times {count} / "
                 "load 5 / fork s1 kid _ / load 5 / push 2 / mul / store 5 / next / join s1 - late intr / total s1 / close s1 / ret / "
                 "late: / total s1 / close s1 / ret / intr: / close s1 / push 80 / fail / end")


def handles(count, subtasks):
    """Flaky subtasks under `until failed 3`. So many of them are read one by one: how many failed, and the sum of the others."""
    forks = " / ".join(f"push {it} / fork s1 flaky {f's{it + 2}' if it < count else '_'}" for it in range(subtasks))
    reads = " / ".join(f"case s{it + 2} ok{it} bad{it} / forget s{it + 2} / jmp on{it} / ok{it}: / get s{it + 2} / load 1 / add / store 1 / "
                       f"forget s{it + 2} / jmp on{it} / bad{it}: / forget s{it + 2} / load 2 / push 1 / add / store 2 / on{it}:" for it in range(count))
    return lines(f"{FLAKY} / func main 0 / open s1 until failed 3 / {forks} / join s1 - - intr / pop / {reads} / close s1 / load 2 / ret / "
                 "intr: / close s1 / push 80 / fail / end")


def races(rounds):
    """Races in a row. A local keeps the winner of each as a digit, so it takes 2^rounds values."""
    return lines(f"func one 0 / push 1 / ret / end / func two 0 / push 0 / ret / end / func main 0 / push {rounds} / times {rounds} / "
                 "open s1 any / fork s1 one _ / fork s1 two _ / join s1 bad - intr / load 0 / push 2 / mul / add / store 0 / close s1 / jmp on / "
                 "bad: / pop / close s1 / jmp on / intr: / close s1 / on: / next / load 0 / ret / end")


# By the name of a text whose ends are searched: the text, and how many interrupts may come.
ENDS = {
    **{f"200 flaky subtasks, {joiner} timed": (lines(f"{FLAKY} / {forks('main 0', '', joiner, True, 200, 'flaky')}"), 1) for joiner in JOINERS},
    **{f"{count} equal subtasks, all": (equal("func kid 1 / load 0 / ret / end", "kid", False, count), 0) for count in EQUAL},
    **{f"{count} equal racing subtasks, all": (equal(RACING, "racing", False, count), 0) for count in EQUAL},
    **{f"{count} equal flaky subtasks, all timed": (equal(FLAKY, "flaky", True, count), 1) for count in EQUAL},
    "8 groups of 8 of 8, all timed": (levels((8, 8, 8)), 2),
    "50 groups of 50, all timed": (levels((50, 50)), 2),
    **{f"{count} groups of {of}, results dropped": (dropped(count, of), 2) for count, of in GROUPS},
    **{f"{count} groups of {of}, results read": (levels((count, of)), 2) for count, of in GROUPS},
    # the greatest of which all ends are known, and one more
    **{f"total of {count} powers": (powers(count), 0) for count in (13, 14)},
    **{f"{count} of 50 read one by one, until failed 3": (handles(count, 50), 0) for count in (8, 9)},
    **{f"{count} races in a row": (races(count), 0) for count in (12, 13)},
}


def labels(names):
    """One function of labels, with a jump to each of some of them, spread over all."""
    order = sorted(names, key=lambda name: name[::-1])
    jumps = "".join(f"jmp {name}\n" for name in order[:: -(-len(order) // 3_000)])
    return "func main 0\n" + "".join(f"{name}:\n" for name in order) + jumps + "push 0\nret\nend\n"


# The sizes of the texts of labels. Each is twice the size before.
TIMES = (1, 2, 4, 8)


def growing(folder):
    """Texts of labels that are hard to tell apart, 1, 2, 4 and 8 times as many."""
    colliding, alike, bucket = colliding_names(10_000), alike_names(24_000), one_bucket_names(96_000)
    for times in TIMES:
        write(folder, f"colliding{times}.sts", labels(colliding[: times * len(colliding) // 8]))
        write(folder, f"alike{times}.sts", labels(alike[: times * len(alike) // 8]))
        write(folder, f"bucket{times}.sts", labels(bucket[: times * len(bucket) // 8]))


def main():
    if len(sys.argv) != 2 or sys.argv[1].startswith("-"):
        raise SystemExit(__doc__)
    folder = sys.argv[1]
    os.makedirs(folder, exist_ok=True)
    write(folder, "straight.sts", straight())
    write(folder, "scopes.sts", scopes())
    write(folder, "loop.sts", LOOP)
    write(folder, "loop.trace", "step 0\n" * 1_000_000)
    write(folder, "fan_out.sts", fan_out(9, 10_000))
    write(folder, "fan_of_loops.sts", FAN_OF_LOOPS)
    write(folder, "fan_out.trace", fan_out_trace(9, 10_000))
    for name, text in {**WORK, **SCOPES}.items():
        write(folder, f"{name}.sts", text)
    for name, make, least in GROWTH:
        for times in (1, 2, 4, 8):
            text, trace = make(least * times)
            write(folder, f"{name}{times}.sts", text)
            write(folder, f"{name}{times}.trace", trace)
    for count, subtasks in ((2, 2), (2, 3), (3, 2), (3, 3)):
        write(folder, f"groups{count}x{subtasks}.sts", groups(count, subtasks))
    for name, (text, _) in ENDS.items():
        write(folder, f"{name}.sts", text)
    growing(folder)


if __name__ == "__main__":
    main()
