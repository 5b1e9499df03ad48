// Prints: UNAVAILABLE
// By the rules, and by the documentation of fork, it throws StructureViolationException.
import java.util.concurrent.StructuredTaskScope.*;

void main() throws Exception {
    ScopedValue<Integer> key = ScopedValue.newInstance();
    try (var scope = StructuredTaskScope.open(Joiner.<Integer>anySuccessfulResultOrThrow())) {
        scope.fork(() -> 1);
        while (!scope.isCancelled()) Thread.onSpinWait();
        IO.println(ScopedValue.where(key, 1).call(() -> scope.fork(() -> 2).state()));
        scope.join();
    }
}
