"""Compares a recording with the rules: the ends of all tasks, the fault, and that each event counts."""
KINDS = {"IllegalStateException": "IllegalState", "WrongThreadException": "WrongThread",
         "StructureViolationException": "Structure", "NoSuchElementException": "Unbound"}
KNOWN_NOTE = "known difference: "


def words_of(task):
    """Returns the word of `look view` for the end of a task in Java; None if it was still at work."""
    if not task.started:
        return "never-started"
    end = task.end()
    if end is None:
        return None
    how = "success" if end.way == "ret" else "failed"
    return how if task.told or task.parent is None else f"unheard {how}"


def wrong_ends(recording, made, states):
    """Returns the tasks whose ends differ. `states` has the words of each task by the rules: `success 5`, `waits join 0` .."""
    wrong = []
    for task in recording.tasks:
        java, rules = words_of(task), states.get(task.birth, "not born")
        if java is None:
            agrees = rules.startswith(("ready", "waits"))
        elif java == "never-started":
            agrees = rules == java
        else:
            agrees = rules == f"{java} {made.expected[task]}"
        if not agrees:
            wrong.append(f"task {task.birth} ({task.site.line}): in Java {java or 'at work'}, by the rules {rules}")
    return wrong


def fault_of(recording):
    """Returns the kind of fault that the misuse of a recording is by the rules, and its task; None without a misuse."""
    op = recording.fault()
    return op and (KINDS.get(op.fault, op.fault), op.task)


def noted(recording):
    """Returns the known differences that the recorder has noted."""
    return {it[len(KNOWN_NOTE):].split(", at ")[0] for it in recording.notes if it.startswith(KNOWN_NOTE)}
