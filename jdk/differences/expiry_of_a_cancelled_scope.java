// Prints: 7
// By the rules the outcome is a timeout.
import java.util.concurrent.StructuredTaskScope.*;

void main() throws InterruptedException {
    try (var scope = StructuredTaskScope.open(Joiner.<Integer>anySuccessfulResultOrThrow(),
            it -> it.withTimeout(Duration.ofSeconds(1)))) {
        scope.fork(() -> 7);           // the joiner cancels the scope
        Thread.sleep(1500);            // then its time is up
        IO.println(scope.join());
    } catch (StructuredTaskScope.TimeoutException e) {
        IO.println("timeout");
    }
}
