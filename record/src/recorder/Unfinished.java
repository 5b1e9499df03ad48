package recorder;

import java.util.List;

/** Writes recordings whose outermost scope is still open: a program that hangs, or a JVM that exits. */
final class Unfinished {
    private static final List<String> HIDDEN = List.of("java.", "jdk.", "sun.", "recorder.");
    private static final int EACH = 200;     // milliseconds

    private Unfinished() {}

    static void begin(Words words) {
        Runtime.getRuntime().addShutdownHook(new Thread(() -> {
            dumpAll("at the exit of the JVM");
            Store.finish();
        }));
        if (words.dumpAfter > 0) Thread.ofPlatform().daemon().name("recorder-hangs").start(() -> watch((long) (words.dumpAfter * 1e9)));
    }

    private static void watch(long nanos) {
        try {
            while (true) {
                Thread.sleep(EACH);
                for (Recording it : Live.open())
                    if (System.nanoTime() - it.began > nanos) dump(it, "after " + nanos / 1_000_000 + " ms");
            }
        } catch (InterruptedException e) {
            Agent.say("no more hangs are looked for");
        }
    }

    static void dumpAll(String when) {
        for (Recording it : Live.open()) dump(it, when);
    }

    private static void dump(Recording it, String when) {
        if (!Live.leave(it)) return;
        it.hold();
        try {
            it.giveUp("written " + when);
            for (RecordedTask task : List.copyOf(it.tasks)) if (task.lives && task.thread != null) task.where = where(task.thread);
            Store.write(it);
        } catch (RuntimeException e) {
            Agent.say("recording " + it.number + " isn't written: " + e);
        } finally {
            it.release();
        }
    }

    static boolean isHidden(String className) {
        for (String it : HIDDEN) if (className.startsWith(it)) return true;
        return false;
    }

    /** Returns the innermost line of a thread that is the application's, and what it calls there. */
    private static String where(Thread thread) {
        String called = "";
        for (StackTraceElement it : thread.getStackTrace()) {
            String name = it.getClassName();
            if (!isHidden(name)) return it.getFileName() + ":" + it.getLineNumber() + called;
            if (!name.startsWith("recorder.")) called = " in " + name.substring(name.lastIndexOf('.') + 1) + "." + it.getMethodName();
        }
        return null;
    }
}
