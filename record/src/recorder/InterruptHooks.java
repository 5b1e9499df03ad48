package recorder;

/** What the rewritten classes call in place of Thread.interrupted() and interrupt(). */
public final class InterruptHooks {
    private static final long CANCELLER_NEEDS = 1_000_000;     // nanoseconds

    private InterruptHooks() {}

    /** Does what {@code Thread.interrupted()} does. */
    public static boolean interrupted(String site) {
        RecordedTask me = Live.here();
        if (me == null) return Thread.interrupted();
        Recording it = me.recording;
        it.hold();
        try {
            boolean[] is = {Thread.interrupted()};
            it.note(() -> {
                if (is[0]) me.foundFlag();
                else if (me.hasFlag) is[0] = comes(me, site);
                Op op = new Op(Op.Kind.INTERRUPTED, site);
                op.value = is[0];
                me.hasFlag = false;
                it.log(me, op);
            });
            return is[0];
        } finally {
            it.release();
        }
    }

    /** By the rules the flag is set: its canceller is about to interrupt it, or something has cleared it. */
    private static boolean comes(RecordedTask me, String site) {
        for (long end = System.nanoTime() + CANCELLER_NEEDS; System.nanoTime() < end; Thread.onSpinWait())
            if (Thread.interrupted()) return true;
        Op cleared = new Op(Op.Kind.INTERRUPTED, site);
        cleared.way = "cleared";
        cleared.value = true;
        me.recording.log(me, cleared);
        return false;
    }

    /** Does what {@code thread.interrupt()} does. */
    public static void interrupt(Thread thread, String site) {
        RecordedTask of = thread == null ? null : Live.of(thread);
        if (of == null || of.recording.isOver) {
            thread.interrupt();
            return;
        }
        Recording it = of.recording;
        it.hold();
        try {
            it.note(() -> {
                if (!of.lives) return;
                it.add(new Event.Interrupted(of));
                of.setFlag(it.now());
            });
            thread.interrupt();
        } finally {
            it.release();
        }
    }
}
