// Prints: IllegalStateException
// By the rules the second join waits, and prints: joined
import java.util.concurrent.StructuredTaskScope.*;

void main() throws InterruptedException {
    try (var scope = StructuredTaskScope.open(Joiner.<Integer>awaitAll())) {
        scope.fork(() -> { Thread.sleep(100); return 1; });
        Thread.currentThread().interrupt();
        try {
            scope.join();
        } catch (InterruptedException e) {
            scope.join();
        }
        IO.println("joined");
    } catch (IllegalStateException e) {
        IO.println("IllegalStateException");
    }
}
