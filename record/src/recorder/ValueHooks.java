package recorder;

import java.util.ArrayList;
import java.util.Collections;
import java.util.List;
import java.util.Map;
import java.util.NoSuchElementException;
import java.util.WeakHashMap;

/** What the rewritten classes call in place of the methods of scoped values. */
public final class ValueHooks {
    /** A carrier binds a key to a value, after what the carrier before it binds. */
    private record Link(ScopedValue.Carrier before, ScopedValue<?> key, Object value) {}

    private static final Map<ScopedValue.Carrier, Link> LINKS = Collections.synchronizedMap(new WeakHashMap<>());

    private ValueHooks() {}

    /** Does what {@code ScopedValue.where(key, value)} does. */
    public static <T> ScopedValue.Carrier where(ScopedValue<T> key, T value, String site) {
        return linked(ScopedValue.where(key, value), null, key, value);
    }

    /** Does what {@code carrier.where(key, value)} does. */
    public static <T> ScopedValue.Carrier where(ScopedValue.Carrier before, ScopedValue<T> key, T value, String site) {
        return linked(before.where(key, value), before, key, value);
    }

    private static ScopedValue.Carrier linked(ScopedValue.Carrier made, ScopedValue.Carrier before, ScopedValue<?> key, Object value) {
        if (Live.current() != null) LINKS.put(made, new Link(before, key, value));
        return made;
    }

    /** Does what {@code carrier.run(body)} does. */
    public static void run(ScopedValue.Carrier carrier, Runnable body, String site) {
        RecordedTask me = Live.here();
        if (me == null) {
            carrier.run(body);
            return;
        }
        List<Link> links = enter(me, carrier, site);
        try {
            carrier.run(body);
        } finally {
            leave(me, links, site);
        }
    }

    /** Does what {@code carrier.call(body)} does. */
    public static <R, X extends Throwable> R call(ScopedValue.Carrier carrier, ScopedValue.CallableOp<? extends R, X> body,
            String site) throws X {
        RecordedTask me = Live.here();
        if (me == null) return carrier.call(body);
        List<Link> links = enter(me, carrier, site);
        try {
            return carrier.call(body);
        } finally {
            leave(me, links, site);
        }
    }

    private static List<Link> enter(RecordedTask me, ScopedValue.Carrier carrier, String site) {
        List<Link> links = new ArrayList<>();
        Recording it = me.recording;
        it.hold();
        it.note(() -> {
            for (ScopedValue.Carrier at = carrier; at != null; ) {
                Link link = LINKS.get(at);
                if (link == null) it.say("left out: a binding at " + site + ", which was made before the recording began");
                else links.addFirst(link);
                at = link == null ? null : link.before();
            }
            for (Link link : links) {
                Op op = new Op(Op.Kind.BIND, site);
                op.key = link.key();
                op.value = link.value();
                it.log(me, op);
                me.entries.push(link);
            }
        });
        it.release();
        return links;
    }

    private static void leave(RecordedTask me, List<Link> links, String site) {
        Recording it = me.recording;
        it.hold();
        it.note(() -> {
            for (int left = links.size(); left > 0 && me.entries.peek() instanceof Link; left--) {
                me.entries.pop();
                it.log(me, new Op(Op.Kind.UNBIND, site));
            }
        });
        it.release();
    }

    private static void ask(Op.Kind kind, ScopedValue<?> key, Object value, String fault, String site) {
        RecordedTask me = Live.here();
        if (me == null) return;
        Recording it = me.recording;
        it.hold();
        it.note(() -> {
            Op op = new Op(kind, site);
            op.key = key;
            op.value = value;
            op.fault = fault;
            it.log(me, op);
        });
        it.release();
    }

    /** Does what {@code key.get()} does. */
    public static Object read(ScopedValue<?> key, String site) {
        try {
            Object value = key.get();
            ask(Op.Kind.READ, key, value, null, site);
            return value;
        } catch (NoSuchElementException e) {
            ask(Op.Kind.READ, key, null, e.getClass().getSimpleName(), site);
            throw e;
        }
    }

    /** Does what {@code key.isBound()} does. */
    public static boolean isBound(ScopedValue<?> key, String site) {
        boolean is = key.isBound();
        ask(Op.Kind.BOUND, key, is, null, site);
        return is;
    }

    /** Does what {@code key.orElse(other)} does. */
    @SuppressWarnings("unchecked")
    public static Object orElse(ScopedValue<?> key, Object other, String site) {
        Object value = ((ScopedValue<Object>) key).orElse(other);
        if (Live.current() != null) ask(key.isBound() ? Op.Kind.ORELSE : Op.Kind.BOUND, key, key.isBound() ? value : false, null, site);
        return value;
    }
}
