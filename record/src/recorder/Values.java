package recorder;

import java.util.ArrayList;
import java.util.HashMap;
import java.util.IdentityHashMap;
import java.util.List;
import java.util.Map;
import java.util.Set;
import java.util.concurrent.CancellationException;
import java.util.concurrent.StructuredTaskScope.FailedException;

/** Numbers the values of a recording: equal strings, enums and numbers are one value, other objects only if they are the same. */
final class Values {
    private static final Set<Class<?>> NUMBERS = Set.of(Integer.class, Long.class, Short.class, Byte.class, Double.class, Float.class,
            Boolean.class, Character.class);
    private static final int LONGEST = 100;

    /** What is written of a value. `line` is where an exception was made; `kind` is interrupt if a cancel may have caused it. */
    record Value(int id, String type, String text, String line, String kind) {}

    private final boolean hasText;
    private final Map<Object, Value> byEquality = new HashMap<>();
    private final Map<Object, Value> byIdentity = new IdentityHashMap<>();
    final List<Value> all = new ArrayList<>();

    Values(boolean hasText) {
        this.hasText = hasText;
    }

    /** Returns the number of a value; null has 0. Calls no equals and no toString of the application. */
    int number(Object value) {
        if (value == null) return 0;
        return (value instanceof Throwable it ? thrown(it) : plain(value)).id;
    }

    private Value plain(Object value) {
        String type = simple(value.getClass());
        if (value instanceof String || NUMBERS.contains(value.getClass()))
            return byEquality.computeIfAbsent(value, _ -> made(type, value instanceof String ? "\"" + value + "\"" : value.toString(), null, null));
        if (value instanceof Enum<?> it) return byIdentity.computeIfAbsent(value, _ -> made(type, it.name(), null, null));
        return byIdentity.computeIfAbsent(value, _ -> made(type, null, null, null));
    }

    /** Exceptions are one value if they have the same class and line, and, if texts are written, the same message. */
    private Value thrown(Throwable it) {
        while (it instanceof FailedException && it.getCause() != null) it = it.getCause();
        Throwable inner = it;
        Value known = byIdentity.get(it);
        if (known != null) return known;
        String type = simple(it.getClass()), line = line(it), message = hasText ? message(it) : null;
        Value value = byEquality.computeIfAbsent(List.of(type, String.valueOf(line), String.valueOf(message)),
                _ -> made(type, message, line, isInterrupt(inner) ? "interrupt" : null));
        byIdentity.put(it, value);
        return value;
    }

    private Value made(String type, String text, String line, String kind) {
        String shown = !hasText || text == null ? null : text.length() > LONGEST ? text.substring(0, LONGEST - 3) + "..." : text;
        Value it = new Value(all.size() + 1, type, shown, line, kind);
        all.add(it);
        return it;
    }

    private static String simple(Class<?> type) {
        String name = type.getName();
        name = name.substring(name.lastIndexOf('.') + 1);
        String inner = name.substring(name.lastIndexOf('$') + 1);
        return inner.isEmpty() || Character.isDigit(inner.charAt(0)) ? name : inner;
    }

    private static String message(Throwable it) {
        try {
            return it.getMessage();
        } catch (RuntimeException e) {
            return null;
        }
    }

    /** Returns the application's line that made the exception, or else null. */
    private static String line(Throwable it) {
        try {
            for (StackTraceElement frame : it.getStackTrace())
                if (!Unfinished.isHidden(frame.getClassName())) return frame.getFileName() + ":" + frame.getLineNumber();
        } catch (RuntimeException e) { /* an exception of the application that hides its stack */ }
        return null;
    }

    private static boolean isInterrupt(Throwable it) {
        for (int depth = 0; it != null && depth < 16; it = it.getCause(), depth++)
            if (it instanceof InterruptedException || it instanceof CancellationException || it.getClass().getSimpleName().contains("Interrupt")) return true;
        return false;
    }
}
