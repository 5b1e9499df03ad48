import java.lang.reflect.Field;
import java.time.Duration;
import java.util.concurrent.Callable;
import java.util.concurrent.ForkJoinPool;
import java.util.concurrent.ForkJoinTask;
import java.util.concurrent.Future;
import java.util.concurrent.StructuredTaskScope;
import java.util.concurrent.StructuredTaskScope.FailedException;
import java.util.concurrent.StructuredTaskScope.Joiner;
import java.util.concurrent.StructuredTaskScope.Subtask;
import java.util.concurrent.StructuredTaskScope.TimeoutException;
import java.util.concurrent.locks.LockSupport;
import java.util.stream.IntStream;
import java.util.stream.Stream;

/** The twelve calls by StructuredTaskScope and ScopedValue of JDK 25. */
final class JdkScopes implements Scopes {
    private static final boolean IS_PLATFORM = "platform".equals(System.getProperty("threads"));
    /** How many milliseconds a timeout is; 0: a day, and {@code expire} runs the timer task early. */
    private static final long TIMEOUT = Long.getLong("timeout", 0);
    private static final Field TIMER = timerField();
    private static final ScopedValue<?>[] KEYS = IntStream.range(0, 16).mapToObj(k -> ScopedValue.newInstance())
            .toArray(ScopedValue<?>[]::new);

    /** The thread that the fork of the calling thread made, if it made one: the factory runs in the thread that forks. */
    private static final ThreadLocal<Thread> MADE = new ThreadLocal<>();

    /** {@code due}: when its time is up, as System.nanoTime() counts. */
    private record Opened(StructuredTaskScope<Long, ?> scope, Kind kind, long due) {}

    private static Thread made(Runnable task) {
        MADE.set(IS_PLATFORM ? Thread.ofPlatform().daemon().unstarted(task) : Thread.ofVirtual().unstarted(task));
        return MADE.get();
    }

    private static Joiner<Long, ?> joiner(Joining joining) {
        return switch (joining.kind()) {
            case ALL -> Joiner.<Long>allSuccessfulOrThrow();
            case ANY -> Joiner.<Long>anySuccessfulResultOrThrow();
            case AWAIT_OK -> Joiner.<Long>awaitAllSuccessfulOrThrow();
            case AWAIT_ALL -> Joiner.<Long>awaitAll();
            case UNTIL -> Joiner.<Long>allUntil(it -> {
                boolean isSuccess = it.state() == Subtask.State.SUCCESS;
                return joining.until().isDone(isSuccess, isSuccess ? it.get() : 0);
            });
        };
    }

    @Override public Object open(Joining joining, boolean isTimed) {
        Duration timeout = TIMEOUT > 0 ? Duration.ofMillis(TIMEOUT) : Duration.ofDays(1);
        long due = System.nanoTime() + timeout.toNanos();     // no timer fires before this
        StructuredTaskScope<Long, ?> scope = StructuredTaskScope.open(joiner(joining), how -> {
            var by = how.withThreadFactory(JdkScopes::made);
            return isTimed ? by.withTimeout(timeout) : by;
        });
        return new Opened(scope, joining.kind(), due);
    }

    @Override public Forked fork(Object scope, Callable<Long> task) {
        Opened it = (Opened) scope;
        MADE.remove();
        Subtask<Long> subtask = it.scope().fork(task);
        return new Forked(subtask, MADE.get());
    }

    @Override public Outcome join(Object scope) {
        Opened it = (Opened) scope;
        try {
            Object result = it.scope().join();
            return new Outcome(Way.OK, it.kind() == Kind.ANY ? (Long) result
                    : result instanceof Stream<?> all ? Long.valueOf(all.count()) : null);
        } catch (FailedException e) {
            return new Outcome(Way.FAILED, codeOf(e.getCause()));
        } catch (TimeoutException e) {
            return new Outcome(Way.TIMEOUT, null);
        } catch (InterruptedException e) {
            return new Outcome(Way.INTERRUPTED, null);
        }
    }

    private static long codeOf(Throwable thrown) {
        return thrown instanceof Failure failure ? failure.code : -1;
    }

    @Override public void close(Object scope) {
        ((Opened) scope).scope().close();
    }

    @Override public boolean isCancelled(Object scope) {
        return ((Opened) scope).scope().isCancelled();
    }

    @Override public State state(Object subtask) {
        return State.valueOf(((Subtask<?>) subtask).state().name());
    }

    @Override public long value(Object subtask) {
        return (Long) ((Subtask<?>) subtask).get();
    }

    @Override public long code(Object subtask) {
        return codeOf(((Subtask<?>) subtask).exception());
    }

    @SuppressWarnings("unchecked")
    private static ScopedValue<Long> key(int number) {
        return (ScopedValue<Long>) KEYS[number];
    }

    @Override public void bind(int key, long value, Runnable body) {
        ScopedValue.where(key(key), value).run(body);
    }

    @Override public long read(int key) {
        return key(key).get();
    }

    @Override public boolean isBound(int key) {
        return key(key).isBound();
    }

    @Override public long readOr(int key, long other) {
        return key(key).orElse(other);
    }

    @Override public void interrupt(Thread thread) {
        thread.interrupt();
    }

    /** Runs the scope's own timer task early, on the pool where the JDK runs it; or waits until the timer has fired. */
    @Override public void expire(Object scope) {
        Future<?> timer = timer(scope);
        if (timer == null) return;
        if (TIMEOUT > 0) while (!timer.isDone()) LockSupport.parkNanos(100_000);
        else if (!timer.isDone()) ForkJoinPool.commonPool().submit(() -> ((ForkJoinTask<?>) timer).quietlyInvoke()).join();
    }

    @Override public boolean mayBeUp(Object scope) {
        Future<?> timer = timer(scope);
        return timer != null && !timer.isCancelled() && System.nanoTime() - ((Opened) scope).due() >= 0;
    }

    private static Future<?> timer(Object scope) {
        try {
            return (Future<?>) TIMER.get(((Opened) scope).scope());
        } catch (IllegalAccessException e) {
            throw new AssertionError(e);
        }
    }

    private static Field timerField() {
        try {
            Field timer = Class.forName("java.util.concurrent.StructuredTaskScopeImpl").getDeclaredField("timerTask");
            timer.setAccessible(true);
            return timer;
        } catch (ReflectiveOperationException e) {
            throw new AssertionError("this JDK keeps the timer of a scope elsewhere", e);
        }
    }
}
