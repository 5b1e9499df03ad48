package recorder;

import java.util.concurrent.Callable;
import java.util.concurrent.StructuredTaskScope;
import java.util.concurrent.StructuredTaskScope.Configuration;
import java.util.concurrent.StructuredTaskScope.Joiner;
import java.util.concurrent.StructuredTaskScope.Subtask;
import java.util.function.Function;

/** The hooks of method references, which have no line of their own: their site is the line that the application is at. */
public final class References {
    private static final StackWalker STACK = StackWalker.getInstance();

    private References() {}

    private static String site() {
        if (Live.current() == null) return "?||";
        return STACK.walk(frames -> frames.filter(it -> !Unfinished.isHidden(it.getClassName())).findFirst()
                .map(it -> it.getFileName() + ":" + it.getLineNumber() + "|" + it.getMethodName() + "|").orElse("?||"));
    }

    public static <T> StructuredTaskScope<T, Void> open() { return ScopeHooks.open(site()); }
    public static <T, R> StructuredTaskScope<T, R> open(Joiner<? super T, ? extends R> joiner) { return ScopeHooks.open(joiner, site()); }
    public static <T, R> StructuredTaskScope<T, R> open(Joiner<? super T, ? extends R> joiner, Function<Configuration, Configuration> how) {
        return ScopeHooks.open(joiner, how, site());
    }
    public static <T, U extends T> Subtask<U> fork(StructuredTaskScope<T, ?> scope, Callable<? extends U> task) { return ScopeHooks.fork(scope, task, site()); }
    public static <T, U extends T> Subtask<U> fork(StructuredTaskScope<T, ?> scope, Runnable task) { return ScopeHooks.fork(scope, task, site()); }
    public static boolean isCancelled(StructuredTaskScope<?, ?> scope) { return ScopeHooks.isCancelled(scope, site()); }
    public static <R> R join(StructuredTaskScope<?, R> scope) throws InterruptedException { return JoinHooks.join(scope, site()); }
    public static void close(StructuredTaskScope<?, ?> scope) { JoinHooks.close(scope, site()); }
    public static Subtask.State state(Subtask<?> subtask) { return SubtaskHooks.state(subtask, site()); }
    public static Object get(Subtask<?> subtask) { return SubtaskHooks.get(subtask, site()); }
    public static Throwable exception(Subtask<?> subtask) { return SubtaskHooks.exception(subtask, site()); }
    public static Object read(ScopedValue<?> key) { return ValueHooks.read(key, site()); }
    public static boolean isBound(ScopedValue<?> key) { return ValueHooks.isBound(key, site()); }
    public static Object orElse(ScopedValue<?> key, Object other) { return ValueHooks.orElse(key, other, site()); }
    public static <T> ScopedValue.Carrier where(ScopedValue<T> key, T value) { return ValueHooks.where(key, value, site()); }
    public static <T> ScopedValue.Carrier where(ScopedValue.Carrier before, ScopedValue<T> key, T value) { return ValueHooks.where(before, key, value, site()); }
    public static void run(ScopedValue.Carrier carrier, Runnable body) { ValueHooks.run(carrier, body, site()); }
    public static <R, X extends Throwable> R call(ScopedValue.Carrier carrier, ScopedValue.CallableOp<? extends R, X> body) throws X {
        return ValueHooks.call(carrier, body, site());
    }
    public static boolean interrupted() { return InterruptHooks.interrupted(site()); }
    public static void interrupt(Thread thread) { InterruptHooks.interrupt(thread, site()); }
}
