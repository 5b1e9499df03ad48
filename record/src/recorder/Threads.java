package recorder;

import java.lang.reflect.InvocationTargetException;
import java.lang.reflect.Method;
import java.util.concurrent.StructuredTaskScope.Configuration;
import java.util.concurrent.ThreadFactory;

/** Wraps the threads of subtasks, so that the whole end of a subtask is one event. */
final class Threads {
    private static Method factoryOf, timeoutOf;

    private Threads() {}

    /** Finds the parts of the JDK's own configuration, which the API can't read. */
    static void begin() throws ReflectiveOperationException {
        Class<?> config = Class.forName("java.util.concurrent.StructuredTaskScopeImpl$ConfigImpl");
        factoryOf = config.getDeclaredMethod("threadFactory");
        timeoutOf = config.getDeclaredMethod("timeout");
        factoryOf.setAccessible(true);
        timeoutOf.setAccessible(true);
    }

    /** Returns the configuration with a factory that wraps its own; as it is, if it can't be read. */
    static Configuration wrapped(Configuration asked, RecordedScope scope) {
        try {
            scope.isTimed = timeoutOf.invoke(asked) != null;
            ThreadFactory real = (ThreadFactory) factoryOf.invoke(asked);
            return asked.withThreadFactory(body -> made(real, body));
        } catch (IllegalAccessException | InvocationTargetException | RuntimeException e) {
            scope.recording.giveUp("the configuration of a scope can't be read: " + e);
            return asked;
        }
    }

    private static Thread made(ThreadFactory real, Runnable body) {
        RecordedTask born = Told.born();
        if (born == null) return real.newThread(body);
        Thread thread = real.newThread(() -> {
            Live.is(born);
            try {
                body.run();
            } finally {
                over(born);
            }
        });
        if (thread != null) Live.starts(thread, born);
        return thread;
    }

    /** The JDK has done all that the end of a subtask does. */
    private static void over(RecordedTask task) {
        Recording it = task.recording;
        if (task.isHolding) {
            it.note(() -> {
                if (task.hasEnded) return;
                if (!task.parent.isCancelled) task.parent.because();
                task.end(false);
            });
            it.release();
        }
        Live.ends(Thread.currentThread());
        Live.isNone();
    }
}
