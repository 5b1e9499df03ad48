import java.util.ArrayDeque;
import java.util.ArrayList;
import java.util.Arrays;
import java.util.Deque;
import java.util.HashMap;
import java.util.List;
import java.util.Map;

/** The functions of a text of the stack code. The text has no fault: check.py asks the assembler before. */
final class Code {
    /** An instruction: its name, the words after it, and for each word the place that it names as a label, or -1. */
    record Instruction(String op, String[] words, int[] targets) {
        int slot(int word) {
            return words[word].equals("_") ? -1 : Integer.parseInt(words[word].substring(1));
        }

        long number(int word) {
            return Long.parseLong(words[word]);
        }

        boolean is(String name) {
            return op.equals(name);
        }
    }

    /** A function; {@code match} has the place of the {@code next} of each {@code times}, or -1. */
    record Function(String name, int arguments, Instruction[] code, int[] match) {}

    static List<Function> read(List<String> lines) {
        List<Function> functions = new ArrayList<>();
        List<String[]> body = new ArrayList<>();
        Map<String, Integer> labels = new HashMap<>();
        String[] head = null;
        for (String line : lines) {
            String[] words = line.replaceFirst(";.*", "").trim().split("[ \t\r]+");
            if (words[0].isEmpty() || words[0].equals("profile") && head == null) continue;
            if (words[0].equals("func")) head = words;
            else if (words[0].endsWith(":")) labels.put(words[0].substring(0, words[0].length() - 1), body.size());
            else if (!words[0].equals("end") || words.length > 1) body.add(words);
            else {
                functions.add(function(head, body, labels));
                head = null;
                body.clear();
                labels.clear();
            }
        }
        return functions;
    }

    private static Function function(String[] head, List<String[]> body, Map<String, Integer> labels) {
        Instruction[] code = body.stream().map(words -> instruction(words, labels)).toArray(Instruction[]::new);
        return new Function(head[1], Integer.parseInt(head[2]), code, matches(code));
    }

    private static Instruction instruction(String[] words, Map<String, Integer> labels) {
        String[] rest = Arrays.copyOfRange(words, 1, words.length);
        return new Instruction(words[0], rest, Arrays.stream(rest).mapToInt(it -> labels.getOrDefault(it, -1)).toArray());
    }

    private static int[] matches(Instruction[] code) {
        int[] match = new int[code.length];
        Arrays.fill(match, -1);
        Deque<Integer> open = new ArrayDeque<>();
        for (int place = 0; place < code.length; place++) {
            if (code[place].is("times")) open.push(place);
            if (code[place].is("next") && !open.isEmpty()) match[open.pop()] = place;
        }
        return match;
    }
}
