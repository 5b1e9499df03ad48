import java.util.NoSuchElementException;
import java.util.concurrent.Callable;

/**
 * What a runtime of structured scopes offers to the player: twelve calls. Another runtime is compared with the rules by a
 * class that implements them, named by -Dscopes=CLASS.
 *
 * <p>Scopes and subtasks are objects of the runtime's own choice. A task is a thread. A misuse is thrown as Java throws it:
 * WrongThreadException, StructureViolationException, IllegalStateException, NoSuchElementException (of {@code read}).
 */
interface Scopes {
    enum State { UNAVAILABLE, SUCCESS, FAILED }

    enum Kind { ALL, ANY, AWAIT_OK, AWAIT_ALL, UNTIL }

    enum Way { OK, FAILED, TIMEOUT, INTERRUPTED }

    /** The condition of {@code until}, asked once for each subtask that completes before its scope is cancelled. */
    interface Condition { boolean isDone(boolean isSuccess, long value); }

    record Joining(Kind kind, Condition until) {}

    /** A new subtask and its thread; null if no thread was made for it. */
    record Forked(Object subtask, Thread thread) {}

    /** The outcome of a join: {@code given} is the code of a failure, the value of ANY, the number of subtasks, or null. */
    record Outcome(Way way, Long given) {}

    /** What a task that fails throws. */
    class Failure extends RuntimeException {
        final long code;

        Failure(long code) {
            super(null, null, false, false);
            this.code = code;
        }
    }

    /** Opens a scope that the calling thread owns; the timeout of a timed one comes by {@code expire}, or in its time. */
    Object open(Joining joining, boolean isTimed);

    Forked fork(Object scope, Callable<Long> task);

    Outcome join(Object scope);

    void close(Object scope);

    boolean isCancelled(Object scope);

    State state(Object subtask);

    long value(Object subtask);

    /** The code of a failed subtask; -1 means an exception that is no Failure. */
    long code(Object subtask);

    /** Runs the body with the key bound to the value. */
    void bind(int key, long value, Runnable body);

    long read(int key);

    void interrupt(Thread thread);

    /** Has the timeout of a scope come now, if it has one that is still to come. */
    void expire(Object scope);

    /** Whether the time of a scope may be up by now. A runtime that gets timeouts only by {@code expire} says no. */
    default boolean mayBeUp(Object scope) {
        return false;
    }

    default boolean isBound(int key) {
        try {
            read(key);
            return true;
        } catch (NoSuchElementException e) {
            return false;
        }
    }

    default long readOr(int key, long other) {
        return isBound(key) ? read(key) : other;
    }
}
