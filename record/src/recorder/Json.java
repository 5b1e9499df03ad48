package recorder;

/** Writes one object of JSON. Members that are null, false or -1 are left out. */
final class Json {
    private final StringBuilder text = new StringBuilder("{");

    Json put(String name, String value) {
        if (value != null) quoted(key(name), value);
        return this;
    }

    Json put(String name, int value) {
        if (value != -1) key(name).append(value);
        return this;
    }

    Json put(String name, boolean value) {
        if (value) key(name).append("true");
        return this;
    }

    private StringBuilder key(String name) {
        if (text.length() > 1) text.append(", ");
        return quoted(text, name).append(": ");
    }

    private static StringBuilder quoted(StringBuilder to, String value) {
        to.append('"');
        for (int n = 0; n < value.length(); n++) {
            char c = value.charAt(n);
            if (c == '"' || c == '\\') to.append('\\').append(c);
            else if (c < ' ' || c > '~') to.append(String.format("\\u%04x", (int) c));
            else to.append(c);
        }
        return to.append('"');
    }

    @Override
    public String toString() {
        return text + "}";
    }
}
