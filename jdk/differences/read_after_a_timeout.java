// Prints: SUCCESS, get() throws IllegalStateException
// Prints: behind close get() gives 7
// By the rules of profile 2 the value can be read before close.
import java.util.concurrent.StructuredTaskScope.*;
import java.util.concurrent.StructuredTaskScope.Subtask.State;

void main() throws InterruptedException {
    Subtask<Integer> seven;
    try (var scope = StructuredTaskScope.open(Joiner.<Integer>awaitAll(), it -> it.withTimeout(Duration.ofSeconds(1)))) {
        seven = scope.fork(() -> 7);
        scope.fork(() -> { Thread.sleep(60_000); return 8; });
        try {
            scope.join();
        } catch (StructuredTaskScope.TimeoutException e) {
            try {
                seven.get();
            } catch (IllegalStateException refused) {
                IO.println(seven.state() + ", get() throws IllegalStateException");
            }
        }
    }
    IO.println("behind close get() gives " + seven.get());
}
