package recorder;

import java.util.concurrent.StructuredTaskScope;
import java.util.concurrent.StructuredTaskScope.FailedException;
import java.util.concurrent.StructuredTaskScope.TimeoutException;

/** What the rewritten classes call in place of join and close. */
public final class JoinHooks {
    private JoinHooks() {}

    /** Does what {@code scope.join()} does. */
    public static <R> R join(StructuredTaskScope<?, R> real, String site) throws InterruptedException {
        RecordedScope scope = Live.scope(real);
        RecordedTask me = Live.here();
        if (scope == null || me == null || scope.recording != me.recording) return real.join();
        Op op = new Op(Op.Kind.JOIN, site, scope);
        op.at = me.recording.events.size();      // read without the lock: at most what it is
        me.pending = op;
        try {
            R result = real.join();
            op.way = "ok";
            op.value = result;
            return result;
        } catch (FailedException e) {
            op.way = "failed";
            op.value = e.getCause();
            throw e;
        } catch (TimeoutException e) {
            op.way = "timeout";
            throw e;
        } catch (InterruptedException e) {
            op.way = "interrupted";
            throw e;
        } catch (RuntimeException e) {
            op.fault = e.getClass().getSimpleName();
            throw e;
        } finally {
            Recording it = me.recording;
            it.hold();
            it.note(() -> joined(me, op));
            it.release();
        }
    }

    private static void joined(RecordedTask me, Op op) {
        RecordedScope scope = op.scope;
        me.pending = null;
        if (op.fault != null) {
            if (scope.isTried) me.recording.say("known difference: a second join, at " + op.site);
        } else if ("interrupted".equals(op.way)) {
            if (interrupted(me, op)) return;
        } else {
            if ("timeout".equals(op.way) && !scope.isExpired) scope.expire();
            scope.isJoined = true;
        }
        me.recording.log(me, op);
    }

    /** Does what an interrupted join does. Returns whether it has added the operation, before the result that came later. */
    private static boolean interrupted(RecordedTask me, Op op) {
        RecordedScope scope = op.scope;
        Recording it = me.recording;
        if (!me.hasFlag && me.parent != null) me.parent.observe();
        boolean isDone = scope.isCancelled || !scope.anyLives();
        if (!me.hasFlag && isDone && op.at <= scope.doneAt) {      // an interrupt that nobody saw come: it came before the result
            it.insert(scope.doneAt, new Event.Interrupted(me));
            me.hasFlag = true;
            me.flagAt = scope.doneAt - 1;
        }
        me.foundFlag();
        me.hasFlag = false;
        scope.isTried = true;
        if (isDone && me.flagAt < scope.doneAt) {
            // it was interrupted first, but its thread ran only after the result had come
            op.at = scope.doneAt;
            me.last = me.lastJoin = op;
            it.insert(scope.doneAt, new Event.Did(me, op));
            return true;
        }
        if (isDone) it.say("known difference: an interrupt after a result, at " + op.site);
        return false;
    }

    /** Does what {@code scope.close()} does. */
    public static void close(StructuredTaskScope<?, ?> real, String site) {
        RecordedScope scope = Live.scope(real);
        if (scope == null) {
            try {
                real.close();
            } finally {
                Live.skip(-1);
            }
            return;
        }
        Live.dally();
        Recording it = scope.recording;
        RecordedTask me = Live.current();
        Op op = new Op(Op.Kind.CLOSE, site, scope);
        it.hold();
        it.note(() -> begins(me, op));
        it.release();
        String thrown = "nothing";
        try {
            real.close();
        } catch (RuntimeException e) {
            thrown = e.getClass().getSimpleName();
            throw e;
        } finally {
            if (op.fault != null) op.fault = thrown;      // what the JDK says, in place of what the recorder expects
            it.hold();
            it.note(() -> closed(me, op));
            if (isOwner(scope)) ended(scope);
            it.release();
        }
    }

    private static boolean isOwner(RecordedScope scope) {
        return scope.owner.thread == Thread.currentThread();
    }

    private static void begins(RecordedTask me, Op op) {
        RecordedScope scope = op.scope;
        if (me == null || me.recording != scope.recording || scope.isClosed) return;
        if (scope.owner != me) op.fault = "WrongThreadException";
        else if (!scope.isJoined && !scope.isTried && !scope.subtasks.isEmpty()) op.fault = "IllegalStateException";
        else if (me.entries.peek() != scope) op.fault = "StructureViolationException";
        if (op.fault != null) {
            scope.recording.log(me, op);
            return;
        }
        scope.closing = op;
        me.pending = op;
        if (scope.isJoined) scope.beginClose();      // else the JDK cancels the scope somewhere inside close
    }

    private static void closed(RecordedTask me, Op op) {
        RecordedScope scope = op.scope;
        if (scope.isClosed || me == null) return;
        me.pending = null;
        if (scope.closing != null) scope.beginClose();
        if (op.isTwo) scope.recording.add(new Event.Closed(me));
    }

    /** Forgets a closed scope; the last one of the root ends the recording. */
    private static void ended(RecordedScope scope) {
        Recording it = scope.recording;
        scope.isClosed = true;
        scope.owner.entries.remove(scope);
        if (scope.owner == it.root && !it.root.hasOpenScope()) finish(it);
    }

    private static void finish(Recording it) {
        it.note(() -> {
            Op last = it.root.lastJoin, op = new Op(Op.Kind.END, it.root.site);
            op.way = last == null || "ok".equals(last.way) ? "ret" : "fail";
            op.value = last == null ? null : last.value;
            it.log(it.root, op);
            it.root.lives = false;
        });
        it.isOver = true;
        Live.isNone();
        if (Live.leave(it)) Store.later(it);
    }
}
