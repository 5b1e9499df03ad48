"""Draws small programs in which everything that a task can see is written down in a local, whose value is the end."""
import random
import re


class Drawn:
    only_any = False

    def __init__(self, draw, profile, within=0):
        self.draw, self.profile, self.functions, self.labels, self.within = draw, profile, [], 0, within

    def label(self):
        self.labels += 1
        return f"l{self.labels}"

    def log(self, *what):
        """Writes a number down: local 15 becomes 5 times itself plus the number."""
        return ["load 15", "push 5", "mul", *what, "add", "store 15"]

    def seen(self, look):
        return self.log(look)

    def kid(self, depth):
        name = f"kid{len(self.functions)}_{self.draw.randrange(10**6)}"
        args = self.draw.choice([0, 0, 1])
        draw, lines = self.draw, []
        for _ in range(draw.choice([0, 0, 1, 1, 2])):
            lines += self.seen(draw.choice(["interrupted", "cancelled s0"]))
        if depth and draw.random() < 0.5:
            lines += self.scope(depth - 1, 1, draw.randrange(1, 3))
        elif draw.random() < 0.5:
            lines += self.log(f"push {draw.randrange(1, 5)}") if not args else ["load 0", "store 15"]
        if draw.random() < 0.25:
            over = self.label()
            lines += self.seen("interrupted") + ["load 15", f"jz {over}", "push 2", "fail", f"{over}:"]
        lines += ["load 15", draw.choice(["ret", "fail", "fail", "fail", "fail"] if self.only_any else ["ret", "ret", "fail"])]
        self.functions.append([f"func {name} {args}", *lines, "end"])
        return name, args

    def handle(self, slot, h, is_late=False):
        good, bad, on = self.label(), self.label(), self.label()
        lines = [f"case s{h} {good} {bad}", *self.log("push 1"), f"jmp {on}", f"{good}:", *self.log("push 2"), f"jmp {on}", f"{bad}:",
                 *self.log("push 3"), f"{on}:"]
        return lines

    def read(self, slot, h, may_get):
        good, bad, on = self.label(), self.label(), self.label()
        get, exc = ([f"get s{h}", "load 15", "add", "store 15"], [f"except s{h}", "load 15", "sub", "store 15"]) if may_get else ([], [])
        return [f"case s{h} {good} {bad}", f"forget s{h}", *self.log("push 1"), f"jmp {on}", f"{good}:", *get, f"forget s{h}", *self.log("push 2"),
                f"jmp {on}", f"{bad}:", *exc, f"forget s{h}", *self.log("push 3"), f"{on}:"]

    def scope(self, depth, slot, count):
        draw = self.draw
        joiner = "any" if self.only_any else draw.choice(["all", "any", "any", "awaitall", "awaitok", "until failed 1", "until failed 2", "until success 1",
                              "until success 2", f"until atleast {draw.randrange(4)}"])
        timed = draw.random() < 0.35
        lines = [f"open s{slot} {joiner}{' timed' if timed else ''}"]
        handles, free = [], list(range(slot + 1, slot + 5))
        kids = [self.kid(depth) for _ in range(draw.randrange(1, count + 1))]
        for _ in range(draw.randrange(1, count + 1)):
            name, args = draw.choice(kids)
            h = free.pop() if draw.random() < 0.5 else None
            if h is not None:
                handles.append(h)
            lines += [f"push {draw.randrange(4)}"] * args + [f"fork s{slot} {name} {'_' if h is None else f's{h}'}"]
            if draw.random() < 0.3:
                lines += self.seen(f"cancelled s{slot}")
            if handles and draw.random() < 0.3:
                h = draw.choice(handles)
                handles.remove(h)
                lines += self.read(slot, h, False)
        if self.within and slot < 2 and draw.random() < self.within:
            lines += self.scope(max(depth - 1, 0), slot + 5, 2)  # another scope of the same task, inside this one
            if handles and draw.random() < 0.5:
                h = draw.choice(handles)
                handles.remove(h)
                lines += self.read(slot, h, False)
            if draw.random() < 0.4:
                lines += self.seen(f"cancelled s{slot}")
            if free and draw.random() < 0.4:
                name, args = draw.choice(kids)
                lines += [f"push {draw.randrange(4)}"] * args + [f"fork s{slot} {name} s{free[-1]}"]
                handles.append(free.pop())
        if draw.random() < 0.15:
            lines += self.seen("interrupted")
        on, can_fail = self.label(), joiner in ("all", "any", "awaitok")
        for turn in range(draw.choice([1, 1, 1, 2])):
            failed, late, intr = self.label(), self.label(), self.label()
            lines += [f"join s{slot} {failed if can_fail else '-'} {late if timed else '-'} {intr}"]
            gives = joiner == "any" or joiner == "all" or joiner.startswith("until")
            lines += (["load 15", "push 5", "mul", "add", "store 15"] if gives else [])
            lines += self.after(slot, handles, True) + [f"close s{slot}", f"jmp {on}"]
            if can_fail:
                lines += [f"{failed}:", "load 15", "push 5", "mul", "add", "store 15", *self.after(slot, handles, True), f"close s{slot}", f"jmp {on}"]
            if timed:
                lines += [f"{late}:", *self.log("push 4"), *self.after(slot, handles, self.profile == 2), f"close s{slot}", f"jmp {on}"]
            lines += [f"{intr}:", *self.log("push 3")]
            if draw.random() < 0.4:
                lines += self.seen(draw.choice([f"cancelled s{slot}", "interrupted"]))
        lines += [f"close s{slot}", f"{on}:"]
        return lines

    def after(self, slot, handles, may_read):
        draw, lines, left = self.draw, [], list(handles)
        draw.shuffle(left)
        kinds = ["cancelled", "handle"] + (["tally", "tally", "total"] if may_read else [])
        for _ in range(draw.choice([0, 1, 1, 2, 3])):
            kind = draw.choice(kinds)
            if kind == "cancelled":
                lines += self.seen(f"cancelled s{slot}")
            elif kind == "handle" and left:
                lines += self.read(slot, left.pop(), may_read)
            elif kind == "tally":
                lines += self.seen(f"tally s{slot} {draw.choice('SFU')}")
            elif kind == "total":
                lines += self.seen(f"total s{slot}")
        return lines + [f"forget s{h}" for h in left]

    def text(self, depth, count):
        draw, lines = self.draw, []
        if draw.random() < 0.15:
            lines += self.seen("interrupted")
        for _ in range(draw.choice([1, 1, 1, 2])):
            lines += self.scope(depth, 0, count)
        if draw.random() < 0.3:
            lines += self.seen("interrupted")
        lines += ["load 15", draw.choice(["ret", "ret", "fail"])]
        head = ["profile 2"] if self.profile == 2 else []
        return "".join(f"{line}\n" for part in [head, *self.functions, ["func main 0", *lines, "end"]] for line in part)


def stress(draw):
    return Drawn(draw, draw.choice([1, 2])).text(draw.choice([0, 0, 1, 1, 2]), draw.choice([2, 2, 3, 3, 4]))


def within(draw):
    return Drawn(draw, draw.choice([1, 2]), 0.5).text(draw.choice([0, 0, 1]), draw.choice([2, 2, 3]))


def failing(draw):
    """Only the joiner `any`, and subtasks that mostly fail, so that it matters which failure was the first."""
    it = Drawn(draw, draw.choice([1, 2]), draw.choice([0, 0, 0.5]))
    it.only_any = True
    return it.text(draw.choice([0, 0, 1]), draw.choice([3, 4, 4]))


PUT_IN = ("close s0", "close s1", "total s0", "tally s0 S", "get s4", "get s3", "except s4", "push 1", "interrupted", "cancelled s0",
          "cancelled s1", "read 3", "push 1\nbind 2", "unbind", "push 2\nret")


def spoilt(draw):
    """Returns a program with lines left out, doubled, exchanged or put in, perhaps a jump. Most of them are refused."""
    lines = stress(draw).splitlines()
    for _ in range(draw.choice([1, 1, 2])):
        places = [it for it, line in enumerate(lines) if not re.match(r"func|end|profile|l\d+:", line)]
        at, to = draw.choice(places), draw.choice(places)
        kind = draw.randrange(5)
        if kind == 0:
            del lines[at]
        elif kind == 1:
            lines.insert(to, lines[at])
        elif kind == 2:
            lines[at], lines[to] = lines[to], lines[at]
        elif kind == 3:
            lines.insert(at, draw.choice(PUT_IN))
        else:
            label = draw.choice([line[:-1] for line in lines if line.endswith(":")])
            lines.insert(at, draw.choice([f"jmp {label}", f"interrupted\njz {label}"]))
    return "".join(f"{line}\n" for line in lines)
