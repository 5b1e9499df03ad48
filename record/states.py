"""What a task holds at a place of its code, and the limits of the language."""
from typing import NamedTuple, Optional

SLOTS, LOCALS, MOST_ARGUMENTS, MOST_INSTRUCTIONS, MOST_TURNS = 16, 16, 8, 4096, 10_000


class Full(Exception):
    """The text would be over a limit of the language; `what` is functions, instructions, slots or keys."""

    def __init__(self, what, message):
        super().__init__(message)
        self.what = what


class Entry(NamedTuple):
    """An open scope, or a binding of the key in `slot`."""
    slot: int
    scope: Optional[object] = None
    joiner: str = ""
    timed: bool = False
    phase: str = "opened"

    def gives(self):
        return not self.joiner.startswith("await")

    def fails(self):
        return self.joiner in ("all", "any", "awaitok")


class State:
    """What a task holds at a place of its code."""

    def __init__(self, is_root):
        self.entries, self.slots, self.kept, self.join = (), {}, {}, None
        self.busy = frozenset() if is_root else frozenset([0])
        self.bound_at = {}

    def copy(self):
        it = State.__new__(State)
        it.entries, it.busy, it.join = self.entries, self.busy, self.join
        it.slots, it.kept, it.bound_at = dict(self.slots), dict(self.kept), dict(self.bound_at)
        return it

    def free(self):
        """Returns a free slot, or None."""
        return next((it for it in range(SLOTS) if it not in self.busy), None)

    def hold(self, what, slot):
        self.slots[what], self.busy = slot, self.busy | {slot}

    def entry(self, scope):
        return next((it for it in self.entries if it.scope is scope and scope is not None), None)

    def phase(self, entry, phase):
        self.entries = tuple(it._replace(phase=phase) if it is entry else it for it in self.entries)

    def bound(self):
        return {it.slot for it in self.entries if it.scope is None}
