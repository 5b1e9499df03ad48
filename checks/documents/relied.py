"""What `look explain` prints of the examples: `accepted`, and a line for each instruction that relies on a rule that
JDK 25 doesn't share. Worked out by hand."""

RELIED = {
    "deadline_profile_2": "JDK 25 throws IllegalStateException at a read after a timeout: in main, line 23: total s0",
    "join_again": "JDK 25 throws IllegalStateException at a join after an interrupted one: in main, line 18: join s0 bad - giveup",
}

# A text that relies on two such rules, and what is printed of it.
TEXT = """func kid 0
  push 7
  ret
end
func main 0
  open s0 awaitall
  push 1
  bind 0
  unbind
  fork s0 kid _
  join s0 - - again
  close s0
  push 1
  ret
again:
  join s0 - - out
  close s0
  push 2
  ret
out:
  close s0
  push 3
  ret
end
"""
PRINTED = """accepted
JDK 25 throws StructureViolationException at a fork behind a thread's first binding: in main, line 10: fork s0 kid _
JDK 25 throws IllegalStateException at a join after an interrupted one: in main, line 16: join s0 - - out
"""


def accepted(name):
    """Returns the status and what is printed of the example of this name."""
    return 0, "\n".join(["accepted", *([RELIED[name]] if name in RELIED else []), ""])
