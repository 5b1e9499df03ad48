package recorder;

import java.util.concurrent.Callable;
import java.util.concurrent.StructuredTaskScope;
import java.util.concurrent.StructuredTaskScope.Configuration;
import java.util.concurrent.StructuredTaskScope.Joiner;
import java.util.concurrent.StructuredTaskScope.Subtask;
import java.util.function.Function;

/** What the rewritten classes call in place of the methods of a scope, apart from join and close. */
public final class ScopeHooks {
    private ScopeHooks() {}

    /** Does what {@code StructuredTaskScope.open()} does. */
    public static <T> StructuredTaskScope<T, Void> open(String site) {
        return open(Joiner.awaitAllSuccessfulOrThrow(), site);
    }

    /** Does what {@code StructuredTaskScope.open(joiner)} does. */
    public static <T, R> StructuredTaskScope<T, R> open(Joiner<? super T, ? extends R> joiner, String site) {
        return open(joiner, it -> it, site);
    }

    /** Does what {@code StructuredTaskScope.open(joiner, configuration)} does. */
    @SuppressWarnings("unchecked")
    public static <T, R> StructuredTaskScope<T, R> open(Joiner<? super T, ? extends R> joiner,
            Function<Configuration, Configuration> how, String site) {
        RecordedTask me = Live.here();
        Recording begun = me != null || joiner == null || how == null ? null : Live.begun(site);
        if (me == null && begun == null) {
            StructuredTaskScope<T, R> real = StructuredTaskScope.open(joiner, how);
            Live.skip(1);
            return real;
        }
        RecordedTask owner = begun != null ? begun.root : me;
        if (joiner == null || how == null) return StructuredTaskScope.open(joiner, how);
        RecordedScope scope = new RecordedScope(owner, Told.kindOf(joiner));
        StructuredTaskScope<T, R> real = StructuredTaskScope.open(
                new Told<>((Joiner<T, R>) joiner, scope), it -> configured(how.apply(it), scope));
        opened(scope, real, begun, site);
        return real;
    }

    private static Configuration configured(Configuration asked, RecordedScope scope) {
        return asked == null ? null : Threads.wrapped(asked, scope);
    }

    private static void opened(RecordedScope scope, StructuredTaskScope<?, ?> real, Recording begun, String site) {
        Recording it = scope.recording;
        scope.real = real;
        it.hold();
        it.note(() -> {
            Op op = new Op(Op.Kind.OPEN, site, scope);
            scope.birth = it.scopes.size();
            it.scopes.add(scope);
            Live.put(real, scope);
            if (begun != null) Live.enter(begun);
            scope.owner.entries.push(scope);
            it.log(scope.owner, op);
        });
        it.release();
    }

    /** Does what {@code scope.fork(runnable)} does. */
    public static <T, U extends T> Subtask<U> fork(StructuredTaskScope<T, ?> real, Runnable body, String site) {
        if (body == null || Live.scope(real) == null && !Live.isSkipping()) return real.fork(body);
        return fork(real, () -> {
            body.run();
            return null;
        }, site);
    }

    /** Does what {@code scope.fork(callable)} does. */
    public static <T, U extends T> Subtask<U> fork(StructuredTaskScope<T, ?> real, Callable<? extends U> body, String site) {
        RecordedScope scope = Live.scope(real);
        if (body == null) return real.fork(body);
        if (scope == null) return Live.isSkipping() ? real.fork(() -> skipped(body)) : real.fork(body);
        if (scope.recording.isOver) return real.fork(body);
        Recording it = scope.recording;
        RecordedTask child = new RecordedTask(it, scope, site);
        Live.dally();
        it.hold();
        try {
            it.note(() -> begins(child));
            Subtask<U> subtask = real.fork(() -> run(child, body));
            it.note(() -> forked(child, null));
            return subtask;
        } catch (RuntimeException e) {
            it.note(() -> forked(child, e));
            throw e;
        } finally {
            Told.bears(null);
            it.release();
        }
    }

    private static <U> U skipped(Callable<? extends U> body) throws Exception {
        Live.skip(1);
        try {
            return body.call();
        } finally {
            Live.skip(-1);
        }
    }

    private static void begins(RecordedTask child) {
        child.parent.observe();
        child.lives = true;
        Told.bears(child);
    }

    /** Adds a fork that the JDK has done, or refused. */
    private static void forked(RecordedTask child, RuntimeException refused) {
        Recording it = child.recording;
        RecordedScope scope = child.parent;
        RecordedTask me = Live.current();
        Op op = new Op(Op.Kind.FORK, child.site, scope);
        if (refused != null) {
            op.fault = refused.getClass().getSimpleName();
            if (me != null && me.recording == it) it.log(me, op);
            return;
        }
        op.subtask = child;
        // a virtual thread that the JDK refuses to start is TERMINATED; one that runs can't end while this lock is held
        Thread.State state = child.thread == null ? Thread.State.NEW : child.thread.getState();
        child.isStarted = state != Thread.State.NEW && state != Thread.State.TERMINATED;
        if (!child.isStarted) {
            child.lives = false;
            scope.observe();
        }
        child.birth = it.tasks.size();
        it.tasks.add(child);
        scope.subtasks.add(child);
        if (child.lives && !scope.isCancelled) scope.doneAt = -1;
        it.log(scope.owner, op);
    }

    /** Runs the body of a subtask. Its thread then holds the lock until the JDK has done all that its end does. */
    private static <U> U run(RecordedTask me, Callable<? extends U> body) throws Exception {
        try {
            Live.dally();
            U value = body.call();
            me.value = value;
            return value;
        } catch (Throwable e) {
            me.error = e;
            throw e;
        } finally {
            Live.dally();
            if (!me.recording.isOver) {
                me.recording.hold();
                me.isHolding = true;
            }
        }
    }

    /** Does what {@code scope.isCancelled()} does. */
    public static boolean isCancelled(StructuredTaskScope<?, ?> real, String site) {
        RecordedScope scope = Live.scope(real);
        RecordedTask me = Live.here();
        if (scope == null || me == null || scope.recording != me.recording) return real.isCancelled();
        Recording it = me.recording;
        it.hold();
        try {
            boolean is = real.isCancelled();
            it.note(() -> {
                if (is) scope.observe();
                Op op = new Op(Op.Kind.CANCELLED, site, scope);
                op.value = is;
                it.log(me, op);
            });
            return is;
        } finally {
            it.release();
        }
    }
}
