package recorder;

import java.util.concurrent.StructuredTaskScope.Joiner;
import java.util.concurrent.StructuredTaskScope.Subtask;

/** A joiner that records what the application's joiner is told. */
final class Told<T, R> implements Joiner<T, R> {
    /** The task that this thread is forking. */
    private static final ThreadLocal<RecordedTask> BORN = new ThreadLocal<>();

    private final Joiner<T, R> real;
    private final RecordedScope scope;

    Told(Joiner<T, R> real, RecordedScope scope) {
        this.real = real;
        this.scope = scope;
    }

    static RecordedTask born() {
        return BORN.get();
    }

    static void bears(RecordedTask task) {
        if (task == null) BORN.remove();
        else BORN.set(task);
    }

    @Override
    public boolean onFork(Subtask<? extends T> subtask) {
        RecordedTask born = born();
        if (born != null && born.parent == scope) scope.recording.note(() -> Live.put(subtask, born));
        return real.onFork(subtask);
    }

    @Override
    public boolean onComplete(Subtask<? extends T> subtask) {
        RecordedTask task = Live.current();
        if (task == null || task.parent != scope) return real.onComplete(subtask);
        scope.recording.note(() -> task.end(true));
        boolean cancels = real.onComplete(subtask);
        scope.recording.note(() -> scope.told(task.error == null, cancels));
        return cancels;
    }

    @Override
    public R result() throws Throwable {
        return real.result();
    }

    /** Returns the word of a text for a joiner. */
    static String kindOf(Joiner<?, ?> joiner) {
        String name = joiner.getClass().getName();
        if (!name.startsWith("java.util.concurrent.")) return "custom " + name;
        return switch (name.substring(name.indexOf('$') + 1)) {
            case "AllSuccessful" -> "all";
            case "AnySuccessful" -> "any";
            case "AwaitSuccessful" -> "awaitok";
            case "AllSubtasks" -> "until";
            default -> joiner.getClass() == Joiner.awaitAll().getClass() ? "awaitall" : "custom " + name;
        };
    }
}
