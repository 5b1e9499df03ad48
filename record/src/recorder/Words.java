package recorder;

import java.nio.file.Path;
import java.util.ArrayList;
import java.util.List;

/** The words behind {@code -javaagent:recorder.jar=}, separated by commas. */
final class Words {
    static final String HELP = """
            java @record/options -javaagent:record/recorder.jar[=WORD,..] ..    records structured scopes (JDK 25)
              folder=PATH    writes the recordings into this folder (default: recorded)
              values=none    writes no value: only its type and a number (default)
              values=text    writes strings, numbers and messages of exceptions as they are
              most=N         records at most N different outermost scopes, each with all below it (default: 1000)
              every=N        records each N-th outermost scope (default: 1)
              dump=N         writes what is still open after N seconds as it is then, and goes on without it
              leave=NAME     leaves the classes of this package as they are; may be given more than once
              delay=N        waits up to N microseconds at random before each call, to try other orders
              help           prints this, and records nothing
            jcmd PID JVMTI.agent_load PATH/recorder.jar dump    writes now what is open
            record/look shows a recording. docs/RECORD.md explains it.
            """;

    Path folder = Path.of("recorded");
    boolean hasText;
    int most = 1000;
    int every = 1;
    double dumpAfter;
    long delay;
    final List<String> left = new ArrayList<>();

    /** Reads the words; throws IllegalArgumentException with a message for people. */
    static Words of(String given) {
        Words it = new Words();
        for (String word : given == null || given.isBlank() ? new String[0] : given.split(",")) {
            String[] parts = word.split("=", 2);
            try {
                it.take(parts[0], parts.length > 1 ? parts[1] : "");
            } catch (NumberFormatException e) {
                throw new IllegalArgumentException("a number is expected in " + word);
            }
        }
        return it;
    }

    private void take(String name, String value) {
        switch (name) {
            case "folder" -> folder = Path.of(value);
            case "values" -> hasText = switch (value) {
                case "text" -> true;
                case "none" -> false;
                default -> throw new IllegalArgumentException("values is none or text, not " + value);
            };
            case "most" -> most = natural(value, 0);
            case "every" -> every = natural(value, 1);
            case "dump" -> dumpAfter = positive(value);
            case "delay" -> delay = natural(value, 0) * 1000L;
            case "leave" -> left.add(value.replace('.', '/'));
            default -> throw new IllegalArgumentException("there is no word " + name);
        }
    }

    private static int natural(String value, int least) {
        int it = Integer.parseInt(value);
        if (it < least) throw new NumberFormatException();
        return it;
    }

    private static double positive(String value) {
        double it = Double.parseDouble(value);
        if (!(it > 0)) throw new NumberFormatException();
        return it;
    }
}
