import java.util.ArrayList;
import java.util.List;
import java.util.NoSuchElementException;
import java.util.concurrent.Callable;
import java.util.concurrent.CopyOnWriteArrayList;
import java.util.concurrent.StructureViolationException;
import java.util.concurrent.ThreadLocalRandom;
import java.util.concurrent.atomic.AtomicLong;
import java.util.concurrent.locks.LockSupport;

/** A task of a case: its thread interprets its frame, and stops at a gate before each instruction. */
final class Task implements Callable<Long> {
    /** A scope as the player knows it. */
    static final class Scope {
        final Object real;
        final Task owner;
        final int birth;
        final String words;      // the joiner, as the text has it
        final boolean isTimed;
        final List<Task> subtasks = new CopyOnWriteArrayList<>();
        volatile boolean isTried, isClosed;
        boolean isAsked;         // the trace asked for its timeout

        Scope(Object real, Task owner, int birth, String words, boolean isTimed) {
            this.real = real;
            this.owner = owner;
            this.birth = birth;
            this.words = words;
            this.isTimed = isTimed;
        }

        boolean hasLiving() {
            return subtasks.stream().anyMatch(Task::isAlive);
        }
    }

    /** Ends a thread when its case is over. */
    static final class Killed extends Error {
        Killed() {
            super(null, null, false, false);
        }
    }

    /** Java has no such program: a binding ends that is not open. */
    static final class Inexpressible extends RuntimeException {}

    final Player player;
    final Code.Function function;
    final Scope scope;                              // the one that it is a subtask of, or null
    final int birth;
    private final long[] stack = new long[64], locals = new long[16];
    private final List<long[]> loops = new ArrayList<>();   // the place of `times`, the turns left
    private final Object[] slots = new Object[16];          // null, a Scope or a Task
    private int height;
    int pc, at;                                     // the next instruction; the one that was begun last
    Long value, code;                               // set by `ret`, `fail`
    Object subtask;                                 // what the runtime has of it
    Thread thread;                                  // null if none was made
    volatile int granted, arrived;
    volatile boolean isPending, isInside;           // the gate keeps an interrupt; it may park in the runtime
    volatile String fault;
    Code.Instruction blocked;                       // the player saw it park in this one
    volatile Scope closing;                         // the scope that it began to close last

    Task(Player player, Code.Function function, Scope scope) {
        this.player = player;
        this.function = function;
        this.scope = scope;
        this.birth = player.tasks.size();
        slots[0] = scope;
        player.tasks.add(this);
    }

    boolean isAlive() {
        return thread != null && thread.isAlive();
    }

    boolean isFlagged() {
        return thread.isInterrupted() || isPending;   // in this order: the gate sets isPending first
    }

    boolean isAtGate() {
        return arrived > granted;
    }

    // ---- in its own thread

    /** Waits until the player grants an instruction; an interrupt that comes meanwhile is kept for that instruction. */
    private void gate() {
        if (player.isFree) {
            dawdle();
            return;
        }
        arrived++;
        while (granted < arrived) {
            if (player.isOver) throw new Killed();
            if (Thread.currentThread().isInterrupted()) {
                isPending = true;
                Thread.interrupted();
            }
            LockSupport.park(this);
        }
        if (isPending) {
            Thread.currentThread().interrupt();
            isPending = false;
        }
    }

    private static void dawdle() {
        int chance = ThreadLocalRandom.current().nextInt(8);
        if (chance == 0) Thread.yield();
        if (chance == 1) for (int k = ThreadLocalRandom.current().nextInt(3000); k > 0; k--) Thread.onSpinWait();
    }

    @Override public Long call() {
        run(0);
        if (code != null) throw new Scopes.Failure(code);
        return value;
    }

    /** Does instructions up to the end of the innermost binding, or of the task; a binding runs in a frame of its own. */
    private void run(int bindings) {
        for (;;) {
            gate();
            at = pc;
            try {
                if (isLast(function.code()[pc], bindings)) return;
            } catch (RuntimeException e) {
                isInside = false;
                fault = kind(e);
                if (player.isFree) throw new Killed();
                gate();                             // until the case is over
            }
        }
    }

    private static String kind(RuntimeException thrown) {
        return switch (thrown) {
            case WrongThreadException e -> "WrongThread";
            case StructureViolationException e -> "Structure";
            case IllegalStateException e -> "IllegalState";
            case NoSuchElementException e -> "Unbound";
            case Inexpressible e -> "Inexpressible";
            default -> thrown.toString();
        };
    }

    /** Does an instruction, and returns whether the frame ends with it. */
    private boolean isLast(Code.Instruction it, int bindings) {
        switch (it.op()) {
            case "ret", "fail" -> {
                long end = pop();
                if (it.is("ret")) value = end; else code = end;
                pc++;
                isInside = true;                    // what ends here may wait for threads of a scope left open
                return true;
            }
            case "unbind" -> {
                if (bindings == 0) throw new Inexpressible();
                pc++;
                isInside = true;
                return true;
            }
            case "bind" -> {
                long bound = pop();
                pc++;
                player.scopes.bind((int) it.number(0), bound, () -> run(bindings + 1));
                isInside = value != null || code != null;
                return isInside;
            }
            default -> {
                pc = next(it);
                return false;
            }
        }
    }

    private void push(long number) {
        stack[height++] = number;
    }

    private long pop() {
        return stack[--height];
    }

    private Scope scope(Code.Instruction it) {
        return (Scope) slots[it.slot(0)];
    }

    private Task subtask(Code.Instruction it) {
        return (Task) slots[it.slot(0)];
    }

    private void two(java.util.function.LongBinaryOperator operation) {
        long b = pop(), a = pop();
        push(operation.applyAsLong(a, b));
    }

    /** Does an instruction that ends no frame, and returns the place of the next one. */
    private int next(Code.Instruction it) {
        switch (it.op()) {
            case "push" -> push(it.number(0));
            case "pop" -> pop();
            case "dup" -> { long b = pop(); push(b); push(b); }
            case "swap" -> { long b = pop(), a = pop(); push(b); push(a); }
            case "load" -> push(locals[(int) it.number(0)]);
            case "store" -> locals[(int) it.number(0)] = pop();
            case "add" -> two((a, b) -> a + b);
            case "sub" -> two((a, b) -> a - b);
            case "mul" -> two((a, b) -> a * b);
            case "lt" -> two((a, b) -> a < b ? 1 : 0);
            case "eq" -> two((a, b) -> a == b ? 1 : 0);
            case "div" -> { long b = pop(), a = pop(); if (b == 0) return it.targets()[0]; push(a / b); }
            case "jmp" -> { return it.targets()[0]; }
            case "jz" -> { if (pop() == 0) return it.targets()[0]; }
            case "times" -> { return begin(it); }
            case "next" -> { return turn(); }
            default -> { return scoped(it); }
        }
        return pc + 1;
    }

    private int begin(Code.Instruction times) {
        long turns = Math.clamp(pop(), 0, times.number(0));
        if (turns == 0) return function.match()[pc] + 1;
        loops.add(new long[] {pc, turns});
        return pc + 1;
    }

    private int turn() {
        long[] loop = loops.getLast();
        if (--loop[1] > 0) return (int) loop[0] + 1;
        loops.removeLast();
        return pc + 1;
    }

    private int scoped(Code.Instruction it) {
        Scopes scopes = player.scopes;
        switch (it.op()) {
            case "open" -> slots[it.slot(0)] = opened(it);
            case "fork" -> fork(it);
            case "join" -> { return join(it); }
            case "close" -> close(scope(it));
            case "cancelled" -> push(scopes.isCancelled(scope(it).real) ? 1 : 0);
            case "case" -> {
                Scopes.State state = scopes.state(subtask(it).subtask);
                if (state != Scopes.State.UNAVAILABLE) return it.targets()[state == Scopes.State.SUCCESS ? 1 : 2];
            }
            case "get" -> push(scopes.value(subtask(it).subtask));
            case "except" -> push(scopes.code(subtask(it).subtask));
            case "tally" -> push(scope(it).subtasks.stream().filter(t -> state(t).name().startsWith(it.words()[1])).count());
            case "total" -> push(scope(it).subtasks.stream().filter(t -> state(t) == Scopes.State.SUCCESS)
                    .mapToLong(t -> scopes.value(t.subtask)).sum());
            case "forget" -> slots[it.slot(0)] = null;
            case "read" -> push(scopes.read((int) it.number(0)));
            case "bound" -> push(scopes.isBound((int) it.number(0)) ? 1 : 0);
            case "orelse" -> push(scopes.readOr((int) it.number(0), pop()));
            case "interrupted" -> push(Thread.interrupted() ? 1 : 0);
            default -> throw new AssertionError(it.op());
        }
        return pc + 1;
    }

    private Scopes.State state(Task task) {
        return player.scopes.state(task.subtask);
    }

    private Scope opened(Code.Instruction it) {
        List<String> words = new ArrayList<>(List.of(it.words()).subList(1, it.words().length));
        boolean isTimed = words.remove("timed");
        Object real = player.scopes.open(joining(words), isTimed);
        return player.born(real, this, String.join(" ", words), isTimed);
    }

    private static Scopes.Joining joining(List<String> words) {
        return switch (words.get(0)) {
            case "all" -> new Scopes.Joining(Scopes.Kind.ALL, null);
            case "any" -> new Scopes.Joining(Scopes.Kind.ANY, null);
            case "awaitok" -> new Scopes.Joining(Scopes.Kind.AWAIT_OK, null);
            case "awaitall" -> new Scopes.Joining(Scopes.Kind.AWAIT_ALL, null);
            default -> new Scopes.Joining(Scopes.Kind.UNTIL, until(words.get(1), Long.parseLong(words.get(2))));
        };
    }

    private static Scopes.Condition until(String what, long bound) {
        if (what.equals("atleast")) return (isSuccess, value) -> isSuccess && value >= bound;
        AtomicLong count = new AtomicLong();
        return (isSuccess, value) -> isSuccess == what.equals("success") && count.incrementAndGet() >= bound;
    }

    private void fork(Code.Instruction it) {
        Scope parent = scope(it);
        Task child = player.unborn(it.words()[1], parent);
        System.arraycopy(stack, height - child.function.arguments(), child.locals, 0, child.function.arguments());
        Scopes.Forked forked = player.scopes.fork(parent.real, child);
        height -= child.function.arguments();
        child.subtask = forked.subtask();
        child.thread = forked.thread();
        parent.subtasks.add(child);
        if (it.slot(2) >= 0) slots[it.slot(2)] = child;
    }

    private int join(Code.Instruction it) {
        Scope joined = scope(it);
        isInside = true;
        try {
            Scopes.Outcome outcome = player.scopes.join(joined.real);
            joined.isTried = true;
            if (outcome.given() != null) push(outcome.given());
            return outcome.way() == Scopes.Way.OK ? pc + 1 : it.targets()[outcome.way().ordinal()];
        } finally {
            isInside = false;
        }
    }

    private void close(Scope closed) {
        closing = closed;
        isInside = true;
        player.scopes.close(closed.real);
        isInside = false;
        closed.isClosed = true;
        for (int k = 0; k < slots.length; k++)
            if (slots[k] == closed || slots[k] instanceof Task child && child.scope == closed) slots[k] = null;
    }

    // ---- in the player's thread

    Code.Instruction instruction(int place) {
        return 0 <= place && place < function.code().length ? function.code()[place] : null;
    }

    /** The scope of a join or close, if it is this task's own, or null. */
    Scope own(Code.Instruction it) {
        return slots[it.slot(0)] instanceof Scope held && held.owner == this ? held : null;
    }

    /** Whether nothing in the JVM would end the wait of this instruction. */
    boolean mustWait(Code.Instruction it) {
        if (it.is("close")) return own(it) != null && hasThreads(own(it));
        if (!it.is("join")) return hasThreads(null);
        Scope joined = own(it);
        return joined != null && (isInside || !joined.isTried) && joined.hasLiving() && !isFlagged()
                && !player.scopes.isCancelled(joined.real);
    }

    /** Whether threads run in a scope that this task opened, from this one on. */
    private boolean hasThreads(Scope from) {
        return player.births.stream().skip(from == null ? 0 : from.birth).anyMatch(it -> it.owner == this && it.hasLiving());
    }

    boolean isParked() {
        Code.Instruction it = instruction(at);
        return isInside && it != null && thread.getState() == Thread.State.WAITING && mustWait(it)
                && thread.getState() == Thread.State.WAITING && isInside && !isAtGate();
    }

    boolean isAtRest() {
        return isAtGate() || !thread.isAlive() || isParked();
    }

    /** Whether it has left the join or close that it was seen to park in, though its step hasn't come. */
    boolean isWoken() {
        return blocked != null && (isAtGate() || !thread.isAlive());
    }

    /** Whether it is at a join that would park it. */
    boolean isBeforeWait() {
        Code.Instruction it = instruction(pc);
        return it != null && it.is("join") && mustWait(it);
    }
}
