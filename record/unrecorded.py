"""Writes the ways that weren't recorded, and choices."""
from states import SLOTS


class Unrecorded:
    """The part of Code for ways that weren't recorded."""

    def give_up(self, to, entries, how="fail"):
        """Closes what is open, and ends with the value or the code on the stack."""
        if not entries:
            self.line(how, to=to)
            return
        it, rest = entries[-1], entries[:-1]
        if it.scope is None:
            self.line("unbind", to=to)
            self.give_up(to, rest, how)
        elif it.phase != "opened":
            self.line(f"close s{it.slot}", to=to)
            self.give_up(to, rest, how)
        else:
            self.leave_unjoined(to, it, rest, how)

    def leave_unjoined(self, to, it, rest, how):
        ways = [self.label("u") if is_there else "-" for is_there in (it.fails(), it.timed, True)]
        self.line(f"join s{it.slot} {' '.join(ways)}", to=to)
        if it.gives():
            self.line("pop", to=to)
        self.line(f"close s{it.slot}", to=to)
        self.give_up(to, rest, how)
        for way, is_code in zip(ways, (True, False, False)):
            if way != "-":
                to.append(f"{way}:")
                if is_code:
                    self.line("pop", to=to)
                self.line(f"close s{it.slot}", to=to)
                self.give_up(to, rest, how)

    def ended(self, to, number, entries, how, name=None):
        self.line(f"push {number}", name, to=to)
        self.give_up(to, entries, how)

    def unknown(self, to, state, who, when):
        """Ends with an unknown value or, in a text for a search, perhaps with an unknown failure."""
        self.is_guess = True
        value = self.values.unknown(f"what {who} gives {when}")
        slot = state.free()
        if not self.texts.is_for_search or not self.ends.own.any() or slot is None or len(state.entries) > SLOTS - 2:
            self.ended(to, value, state.entries, "ret")
            return
        code = self.values.unknown(f"the failure of {who} {when}")
        late = self.choose(to, slot)
        self.ended(to, value, state.entries, "ret")
        to += [f"{late}:", f"  close s{slot}"]
        self.ended(to, code, state.entries, "fail")

    def choose(self, to, slot):
        """Writes a choice between what follows and what follows the returned label, which still has to close the scope.

        Nothing in the language chooses, but the expiry of an empty scope may come before its join, or not.
        """
        late, interrupted, go = self.label("other"), self.label("u"), self.label("go")
        for words in (f"open s{slot} awaitall timed", f"join s{slot} - {late} {interrupted}", f"close s{slot}", f"jmp {go}"):
            self.line(words, to=to)
        to.append(f"{interrupted}:")
        self.line(f"close s{slot}", to=to)
        to.append(f"{go}:")
        return late

    def name(self):
        site = self.joined.task().site
        return f"{site.called} at {site.line}" if site.called else f"the task of {site.line}"


def unstarted(texts, who, wants):
    """Returns the code of a task that never started."""
    value = texts.values.unknown(f"what {who} gives if it starts")
    if not texts.is_for_search or not wants.any():
        return f"  push {value}\n  ret"
    code = texts.values.unknown(f"the failure of {who} if it starts")
    return "\n".join(["  open s1 awaitall timed", "  join s1 - other u", "  close s1", "  jmp go", "u:", "  close s1", "go:", f"  push {value}", "  ret",
                      "other:", "  close s1", f"  push {code}", "  fail"])
