package recorder;

import java.util.concurrent.StructuredTaskScope.Subtask;
import java.util.function.Supplier;

/** What the rewritten classes call in place of the methods of a subtask. */
public final class SubtaskHooks {
    private SubtaskHooks() {}

    private static <R> R asked(Subtask<?> subtask, Op.Kind kind, String site, Supplier<R> real) {
        RecordedTask of = Live.subtask(subtask), me = Live.here();
        if (of == null || me == null || of.recording != me.recording) return real.get();
        Recording it = me.recording;
        Op op = new Op(kind, site, of.parent);
        op.subtask = of;
        op.way = of.parent.isClosed ? "late" : of.parent.owner != me ? "other" : null;
        it.hold();
        try {
            R result = real.get();
            op.value = result;
            return result;
        } catch (IllegalStateException e) {
            if (op.way == null) op.fault = e.getClass().getSimpleName();
            throw e;
        } finally {
            it.note(() -> it.log(me, op));
            it.release();
        }
    }

    /** Does what {@code subtask.state()} does. */
    public static Subtask.State state(Subtask<?> subtask, String site) {
        return asked(subtask, Op.Kind.STATE, site, subtask::state);
    }

    /** Does what {@code subtask.get()} does. */
    public static Object get(Subtask<?> subtask, String site) {
        return asked(subtask, Op.Kind.GET, site, () -> (Object) subtask.get());
    }

    /** Does what {@code subtask.exception()} does. */
    public static Throwable exception(Subtask<?> subtask, String site) {
        return asked(subtask, Op.Kind.EXCEPT, site, subtask::exception);
    }
}
