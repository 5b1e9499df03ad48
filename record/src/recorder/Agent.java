package recorder;

import java.lang.instrument.Instrumentation;

/**
 * Starts the recorder in a JVM.
 *
 * <p>This class and Words are compiled for JDK 17, so that an older JDK, too, says why it records nothing. They name no other class of
 * the recorder, and load one only in a JVM that the recorder knows.
 */
public final class Agent {
    private static final int KNOWN = 25;
    private static volatile boolean isStarted;

    private Agent() {}

    /** Begins to record, before the application's main method. */
    public static void premain(String given, Instrumentation instrumentation) {
        try {
            if ("help".equals(given)) System.err.print(Words.HELP);
            else start(Words.of(given), instrumentation);
        } catch (IllegalArgumentException e) {
            say(e.getMessage() + ", so nothing is recorded (the word help lists all words)");
        } catch (Throwable e) {
            say("nothing is recorded: " + e);
        }
    }

    /** Writes what is open, when jcmd loads the agent into a JVM where it records. */
    public static void agentmain(String given, Instrumentation instrumentation) throws ReflectiveOperationException {
        if (!isStarted) say("this JVM wasn't started with -javaagent:recorder.jar, so nothing is recorded");
        else if (!"dump".equals(given)) say("the only word here is dump");
        else Class.forName("recorder.Unfinished").getDeclaredMethod("dumpAll", String.class).invoke(null, "on jcmd");
    }

    /** Prints the words of the agent. */
    public static void main(String[] words) {
        System.out.print(Words.HELP);
    }

    private static void start(Words words, Instrumentation instrumentation) throws ReflectiveOperationException {
        int version = Runtime.version().feature();
        if (version != KNOWN) {
            say("this is JDK " + version + ", and only JDK " + KNOWN + " is known, so nothing is recorded");
            return;
        }
        if (!hasPreview()) {
            say("the JVM has no --enable-preview, so there are no structured scopes to record");
            return;
        }
        Class.forName("recorder.Beginning").getDeclaredMethod("begin", Words.class, Instrumentation.class).invoke(null, words, instrumentation);
        isStarted = true;
    }

    /** A class file that depends on preview features can't be loaded without them. */
    private static boolean hasPreview() {
        try {
            Class.forName("recorder.ScopeHooks", false, Agent.class.getClassLoader());
            return true;
        } catch (UnsupportedClassVersionError e) {
            return false;
        } catch (ClassNotFoundException e) {
            throw new IllegalStateException(e);
        }
    }

    static void say(String what) {
        System.err.println("recorder: " + what);
    }
}
