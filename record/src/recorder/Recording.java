package recorder;

import java.util.ArrayList;
import java.util.List;
import java.util.concurrent.TimeUnit;
import java.util.concurrent.locks.ReentrantLock;

/**
 * What is recorded of one outermost scope and all below it.
 *
 * <p>One lock orders its events. A thread holds it while the JDK does what is recorded, so that each call and its event are one.
 * Nothing here throws, and if nobody takes the lock for PATIENCE, the recording is given up.
 */
final class Recording {
    private static final long PATIENCE = 1_000_000_000;     // nanoseconds
    private static final int MOST = 500_000;                // events

    final int number;
    final long began = System.nanoTime();
    final List<Event> events = new ArrayList<>();
    final List<RecordedTask> tasks = new ArrayList<>();
    final List<RecordedScope> scopes = new ArrayList<>();
    final List<String> notes = new ArrayList<>();
    final List<Object> subtasks = new ArrayList<>();      // the JDK's objects, which Live knows
    final RecordedTask root;
    volatile boolean isOver;                              // nothing more is recorded
    volatile String unfinished;                           // why it ends before its outermost scope was closed
    private final ReentrantLock lock = new ReentrantLock();
    private volatile int turns;                           // how often the lock was taken; guarded by it

    Recording(int number, String site) {
        this.number = number;
        root = new RecordedTask(this, null, site);
        root.thread = Thread.currentThread();
        root.lives = root.isStarted = true;
        root.birth = 0;
        tasks.add(root);
    }

    /**
     * Takes the lock. Gives the recording up if nobody could take it for some time; the application then goes on without the lock.
     * Many threads that take turns are no reason to give up.
     */
    void hold() {
        if (lock.tryLock()) turns++;
        else if (!isOver) await();
    }

    private void await() {
        boolean wasInterrupted = false;
        long seen = turns, end = System.nanoTime() + PATIENCE;
        while (!isOver) {
            try {
                if (lock.tryLock(PATIENCE / 4, TimeUnit.NANOSECONDS)) {
                    turns++;
                    break;
                }
                if (turns != seen) end = System.nanoTime() + PATIENCE;
                else if (System.nanoTime() >= end)
                    giveUp("the recorder's lock wasn't free for a second; does a joiner wait for a lock of the application?");
                seen = turns;
            } catch (InterruptedException e) {
                wasInterrupted = true;
            }
        }
        if (wasInterrupted) Thread.currentThread().interrupt();
    }

    void release() {
        if (lock.isHeldByCurrentThread()) lock.unlock();
    }

    boolean isHeld() {
        return lock.isHeldByCurrentThread();
    }

    /** Does the recorder's own work; if it fails, the recording is given up and the application doesn't notice. */
    void note(Runnable work) {
        if (isOver || !isHeld()) return;
        try {
            work.run();
        } catch (Throwable e) {
            giveUp("the recorder failed: " + e);
        }
    }

    /** Ends the recording before its time. */
    void giveUp(String why) {
        if (unfinished == null) unfinished = why;
        isOver = true;
    }

    void say(String note) {
        if (!isOver) notes.add(note);
    }

    /** Returns the number of the last event. */
    int now() {
        return events.size() - 1;
    }

    void add(Event event) {
        if (events.size() >= MOST) giveUp("more than " + MOST + " events; was a scope open as long as a server runs?");
        if (!isOver) events.add(event);
    }

    /** Adds the operation of a task. A misuse is the last event. */
    void log(RecordedTask task, Op op) {
        if (isOver || task.hasEnded) return;      // a joiner's own questions come after the end of the task that it is told of
        if (op.repeats(task.last)) {
            task.last.times++;
            return;
        }
        op.at = events.size();
        task.last = op;
        if (op.kind == Op.Kind.JOIN) task.lastJoin = op;
        add(new Event.Did(task, op));
        if (op.fault != null) isOver = true;
    }

    /** Adds an event before others, at the place where the rules have it. */
    void insert(int at, Event event) {
        events.add(at, event);
        for (RecordedTask it : tasks) if (it.flagAt >= at) it.flagAt++;
        for (RecordedScope it : scopes) if (it.doneAt >= at) it.doneAt++;
    }
}
