package recorder;

import java.lang.instrument.Instrumentation;
import java.util.Map;
import java.util.Set;

/** Begins to record in a JVM that the recorder knows. */
final class Beginning {
    private Beginning() {}

    static void begin(Words words, Instrumentation instrumentation) throws ReflectiveOperationException {
        Module mine = Agent.class.getModule(), base = Object.class.getModule();
        instrumentation.redefineModule(base, Set.of(), Map.of(), Map.of("java.util.concurrent", Set.of(mine)), Set.of(), Map.of());
        Threads.begin();
        Live.begin(words);
        Store.begin(words);
        Unfinished.begin(words);
        instrumentation.addTransformer(new Rewriter(words.left));
    }
}
