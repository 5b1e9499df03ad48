package recorder;

import java.util.Map;
import java.util.concurrent.ConcurrentHashMap;
import java.util.concurrent.ThreadLocalRandom;
import java.util.concurrent.atomic.AtomicInteger;
import java.util.concurrent.locks.LockSupport;

/** Finds what is recorded of a thread, a scope or a subtask of the JDK. */
final class Live {
    private static final ThreadLocal<RecordedTask> CURRENT = new ThreadLocal<>();
    private static final ThreadLocal<int[]> SKIPPED = new ThreadLocal<>();
    private static final Map<Object, RecordedScope> SCOPES = new ConcurrentHashMap<>();
    private static final Map<Object, RecordedTask> SUBTASKS = new ConcurrentHashMap<>();
    private static final Map<Thread, RecordedTask> THREADS = new ConcurrentHashMap<>();
    private static final Map<Recording, Boolean> OPEN = new ConcurrentHashMap<>();
    private static final AtomicInteger ASKED = new AtomicInteger(), NUMBER = new AtomicInteger();
    private static int every = 1;
    private static long delay;
    /** Is nothing open that is recorded? Then a hook does the call and nothing else. */
    private static volatile boolean isIdle = true;
    /** Will nothing be recorded any more? */
    static volatile boolean isDone;

    private Live() {}

    static void begin(Words words) {
        every = words.every;
        delay = words.delay;
        isDone = words.most == 0;
    }

    /** Returns the task of this thread, if it is recorded now. */
    static RecordedTask here() {
        if (isIdle) return null;
        dally();
        return current();
    }

    /** Returns what here returns, without a delay. */
    static RecordedTask current() {
        if (isIdle) return null;
        RecordedTask task = CURRENT.get();
        return task == null || task.recording.isOver ? null : task;
    }

    /** Returns a new recording, or null if this outermost scope isn't recorded. */
    static Recording begun(String site) {
        if (isDone || SKIPPED.get() != null) return null;
        if (ASKED.getAndIncrement() % every != 0) return null;
        return new Recording(NUMBER.incrementAndGet(), site);
    }

    /** The first scope of a recording is open. */
    static void enter(Recording it) {
        OPEN.put(it, true);
        isIdle = false;
        CURRENT.set(it.root);
        THREADS.put(it.root.thread, it.root);
    }

    /** Forgets a recording. Returns whether it was open until now. */
    static boolean leave(Recording it) {
        boolean wasOpen = OPEN.remove(it) != null;
        THREADS.remove(it.root.thread);
        it.subtasks.forEach(SUBTASKS::remove);
        for (RecordedScope scope : it.scopes) SCOPES.remove(scope.real);
        if (OPEN.isEmpty()) isIdle = true;
        if (!OPEN.isEmpty()) isIdle = false;      // one was opened meanwhile
        return wasOpen;
    }

    static Iterable<Recording> open() {
        return OPEN.keySet();
    }

    static void is(RecordedTask task) {
        CURRENT.set(task);
    }

    static void isNone() {
        CURRENT.remove();
    }

    static RecordedScope scope(Object real) {
        return isIdle ? null : SCOPES.get(real);
    }

    static void put(Object real, RecordedScope scope) {
        SCOPES.put(real, scope);
    }

    static RecordedTask subtask(Object real) {
        return isIdle ? null : SUBTASKS.get(real);
    }

    static void put(Object real, RecordedTask task) {
        SUBTASKS.put(real, task);
        task.recording.subtasks.add(real);
    }

    static RecordedTask of(Thread thread) {
        return isIdle ? null : THREADS.get(thread);
    }

    static void starts(Thread thread, RecordedTask task) {
        task.thread = thread;
        THREADS.put(thread, task);
    }

    static void ends(Thread thread) {
        THREADS.remove(thread);
    }

    // ---- what isn't recorded: scopes below a skipped outermost scope aren't outermost ones

    static boolean isSkipping() {
        return every > 1 && !isDone && SKIPPED.get() != null;
    }

    static void skip(int by) {
        if (every == 1 || isDone) return;
        int[] depth = SKIPPED.get();
        if (depth == null && by > 0) SKIPPED.set(new int[] {by});
        else if (depth != null && (depth[0] += by) <= 0) SKIPPED.remove();
    }

    /** Waits at random, to try other orders. */
    static void dally() {
        if (delay == 0) return;
        ThreadLocalRandom random = ThreadLocalRandom.current();
        if (random.nextInt(3) > 0) LockSupport.parkNanos(random.nextLong(delay));
        else if (random.nextBoolean()) Thread.yield();
    }
}
