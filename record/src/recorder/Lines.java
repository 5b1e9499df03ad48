package recorder;

import java.util.IdentityHashMap;
import java.util.Map;

/** Writes a recording as lines of JSON: notes, scopes, tasks, events in order, and the values that they name. */
final class Lines {
    private final Recording recording;
    private final Values values;
    private final Map<Object, Integer> keys = new IdentityHashMap<>();
    private final StringBuilder text = new StringBuilder();

    Lines(Recording recording, boolean hasText) {
        this.recording = recording;
        this.values = new Values(hasText);
    }

    /** Returns everything but the recording's number, so that equal recordings have equal lines. */
    String all() {
        add(new Json().put("recording", recording.root.site).put("unfinished", recording.unfinished));
        for (String it : recording.notes) add(new Json().put("note", it));
        for (RecordedScope it : recording.scopes) add(new Json().put("scope", it.birth).put("owner", it.owner.birth).put("joiner", it.joiner)
                .put("timed", it.isTimed).put("canceller", it.canceller).put("canceller_count", it.canceller == null ? -1 : it.cancelledAt));
        for (RecordedTask it : recording.tasks) add(new Json().put("task", it.birth).put("parent", it.parent == null ? -1 : it.parent.birth)
                .put("site", it.site).put("started", it.isStarted).put("lives", it.lives).put("told", it.isHeard).put("flag", it.hasFlag)
                .put("where", it.where).put("pending", it.lives && it.pending != null ? it.pending.kind.name().toLowerCase() : null)
                .put("pending_scope", it.lives && it.pending != null ? it.pending.scope.birth : -1)
                .put("pending_site", it.lives && it.pending != null ? it.pending.site : null));
        recording.events.forEach(this::event);
        for (Values.Value it : values.all) add(new Json().put("value", it.id()).put("type", it.type()).put("text", it.text())
                .put("line", it.line()).put("kind", it.kind()));
        return text.toString();
    }

    private void add(Json it) {
        text.append(it).append('\n');
    }

    private void event(Event event) {
        switch (event) {
            case Event.Interrupted it -> add(new Json().put("interrupt", it.task().birth));
            case Event.Expired it -> add(new Json().put("expire", it.scope().birth));
            case Event.Closed it -> add(new Json().put("closed", it.task().birth));
            case Event.Did it -> did(it.task(), it.op());
        }
    }

    private void did(RecordedTask task, Op op) {
        Json it = new Json().put("do", op.kind.name().toLowerCase()).put("task", task.birth).put("site", op.site)
                .put("scope", op.scope == null ? -1 : op.scope.birth).put("subtask", op.subtask == null ? -1 : op.subtask.birth)
                .put("way", op.way).put("fault", op.fault).put("times", op.times == 1 ? -1 : op.times);
        if (op.key != null) it.put("key", keys.computeIfAbsent(op.key, _ -> keys.size()));
        add(answer(it, op));
    }

    /** What came out: a truth, a state, or a value. */
    private Json answer(Json it, Op op) {
        return switch (op.kind) {
            case CANCELLED, INTERRUPTED, BOUND -> it.put("is", Boolean.TRUE.equals(op.value) ? "true" : "false");
            case STATE -> it.put("is", String.valueOf(op.value).toLowerCase());
            case JOIN, GET, EXCEPT, BIND, READ, ORELSE, END -> it.put("value", values.number(op.value));
            case OPEN, FORK, CLOSE, UNBIND -> it;
        };
    }
}
