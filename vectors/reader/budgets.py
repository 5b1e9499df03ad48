"""The budgets of a function: the greatest count of steps, and the peaks of tasks, scopes and bindings."""
from program import NO_FALL, labels

MOST_STEPS, MOST_AT_ONCE = 1_000_000, 65_536


class Budget:
    """The budgets of one function."""

    def __init__(self, name, steps, tasks, scopes, binds):
        self.name, self.steps, self.tasks, self.scopes, self.binds = name, steps, tasks, scopes, binds

    def over(self):
        """Returns the number of the first cause of V17 to V20 that applies, or None."""
        counts = ((17, self.steps, MOST_STEPS), (18, self.tasks, MOST_AT_ONCE), (19, self.scopes, MOST_AT_ONCE), (20, self.binds, MOST_AT_ONCE))
        return next((cause for cause, count, most in counts if count > most), None)

    def said(self):
        return {"function": self.name, "steps": self.steps, "tasks": self.tasks, "scopes": self.scopes, "binds": self.binds}


def budgets(function, reached, earlier):
    """Returns the budgets of an accepted function. `earlier` has those of the functions before it."""
    match = function.matches()
    steps = Steps(function, match, earlier).budget()
    peaks = [Peak(function, match, reached, weigh).budget() for weigh in (task_weights(earlier), scope_weights(earlier), bind_weights(earlier))]
    return Budget(function.name, steps, 1 + peaks[0], peaks[1], peaks[2])


class Steps:
    """The greatest count of steps. Each loop makes all its turns, and a path may end in its last one."""

    def __init__(self, function, match, earlier):
        self.code, self.match, self.earlier = function.code, match, earlier

    def weight(self, it):
        if it.word == "fork":
            return 1 + self.earlier[it.operands[1]].steps
        return 2 if it.word == "close" else 1

    def edges(self, place, count):
        """Yields where an instruction leads to, and the count there."""
        it = self.code[place]
        count += self.weight(it)
        if it.word == "times":
            end = self.match[place]
            yield place + 1, count + (it.operands[0] - 1) * self.turn(place)
            yield end + 1, count
            return
        for target in labels(it):
            yield target, count
        if it.word not in NO_FALL:
            yield place + 1, count

    def longest(self, first, last):
        """Returns the greatest count at each place from one to another, of paths that begin at the first."""
        best = {first: 0}
        for place in range(first, last):
            if place in best:
                for target, count in self.edges(place, best[place]):
                    best[target] = max(count, best.get(target, 0))
        return best

    def turn(self, times):
        """Returns the greatest count of a turn."""
        end = self.match[times]
        return self.longest(times + 1, end)[end] + 1

    def budget(self):
        best = self.longest(0, len(self.code))
        return max(best[place] + 1 for place, it in enumerate(self.code) if it.word in ("ret", "fail"))


def task_weights(earlier):
    return lambda it: earlier[it.operands[1]].tasks if it.word == "fork" else 0


def scope_weights(earlier):
    return lambda it: earlier[it.operands[1]].scopes if it.word == "fork" else int(it.word == "open")


def bind_weights(earlier):
    return lambda it: earlier[it.operands[1]].binds if it.word == "fork" else int(it.word == "bind")


class Peak:
    """The greatest sum of weights at one point.

    At each place it keeps a list of sums: the greatest weight of the first n open entries, for each n. Such a sum is right
    also after the entries above are closed, and each sum may come from another path."""

    def __init__(self, function, match, reached, weigh):
        self.code, self.match, self.reached, self.weigh, self.peak = function.code, match, reached, weigh, 0

    def after(self, place, sums):
        """Returns the sums after an instruction."""
        it = self.code[place]
        if it.word in ("open", "bind"):
            return sums + [sums[-1] + self.weigh(it)]
        if it.word in ("close", "unbind"):
            return sums[:-1]
        if it.word == "fork":
            at = next(at for at, entry in enumerate(self.reached[place].entries) if getattr(entry, "slot", None) == it.operands[0])
            return sums[: at + 1] + [it_ + self.weigh(it) for it_ in sums[at + 1 :]]
        return sums

    def edges(self, place, sums):
        it, after = self.code[place], self.after(place, sums)
        if it.word == "times":
            gain = self.turn(place, len(after))
            yield place + 1, [sum_ + (it.operands[0] - 1) * more for sum_, more in zip(after, gain)]
            yield self.match[place] + 1, after
            return
        for target in labels(it):
            yield target, after
        if it.word not in NO_FALL:
            yield place + 1, after

    def longest(self, first, last, sums):
        best = {first: sums}
        for place in range(first, last):
            if place in best:
                self.peak = max(self.peak, best[place][-1])
                for target, after in self.edges(place, best[place]):
                    best[target] = list(map(max, after, best.get(target, after)))
        return best

    def turn(self, times, length):
        """Returns what a turn adds to each sum, at most."""
        end = self.match[times]
        return self.longest(times + 1, end, [0] * length)[end]

    def budget(self):
        self.longest(0, len(self.code), [0])
        return self.peak
