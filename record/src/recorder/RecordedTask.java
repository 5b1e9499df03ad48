package recorder;

import java.util.ArrayDeque;
import java.util.Deque;

/** A task of a recording: the thread that opened the outermost scope, or a subtask. All is guarded by the recording's lock. */
final class RecordedTask {
    final Recording recording;
    final RecordedScope parent;    // null for the root
    final String site;
    int birth = -1;
    volatile Thread thread;
    boolean isStarted, lives, isHeard, hasEnded;
    boolean hasFlag;               // is its interrupt flag set, by the rules?
    int flagAt = -1;               // the event that set the flag
    boolean isHolding;             // does its thread hold the lock until the JDK has done all that an end does?
    Object value;
    Throwable error;
    Op last;                       // its last operation
    Op lastJoin;
    volatile Op pending;           // a join or close that has been called
    String where;                  // where its thread was when an unfinished recording was written
    final Deque<Object> entries = new ArrayDeque<>();    // open scopes and bindings, the innermost first

    RecordedTask(Recording recording, RecordedScope parent, String site) {
        this.recording = recording;
        this.parent = parent;
        this.site = site;
    }

    void setFlag(int now) {
        if (!hasFlag) flagAt = now;
        hasFlag = true;
    }

    /** Its flag was found set: by a cancel that hasn't been noticed, or else by an interrupt from outside. */
    void foundFlag() {
        if (!hasFlag && parent != null) parent.observe();
        if (hasFlag) return;
        recording.add(new Event.Interrupted(this));
        setFlag(recording.now());
    }

    /** Adds its end. The joiner is told of it unless the scope was cancelled before. */
    void end(boolean isHeardOf) {
        Op op = new Op(Op.Kind.END, site);
        op.way = error != null ? "fail" : "ret";
        op.value = error != null ? error : value;
        recording.log(this, op);
        isHeard = isHeardOf;
        lives = false;
        hasEnded = true;
        if (parent.doneAt < 0 && !parent.anyLives()) parent.doneAt = recording.now();
    }

    boolean hasOpenScope() {
        return entries.stream().anyMatch(RecordedScope.class::isInstance);
    }
}
