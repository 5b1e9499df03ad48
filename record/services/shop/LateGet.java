package shop;

import java.time.Duration;
import java.util.concurrent.StructuredTaskScope;
import java.util.concurrent.StructuredTaskScope.Joiner;
import java.util.concurrent.StructuredTaskScope.Subtask;

/** Reads what has come after a timeout, but before close, which JDK 25 refuses. A run is mostly in time. */
public class LateGet {
    private static int part(int number, int millis) throws InterruptedException {
        Thread.sleep(millis);
        return number;
    }

    public static void main(String[] args) throws Exception {
        Duration timeout = Duration.ofMillis(args.length > 0 ? 20 : 2000);
        try (var scope = StructuredTaskScope.open(Joiner.<Integer>awaitAll(), it -> it.withTimeout(timeout))) {
            var first = scope.fork(() -> part(1, 0));
            scope.fork(() -> part(2, 200));
            try {
                scope.join();
            } catch (StructuredTaskScope.TimeoutException e) {
                System.out.println("late");
            }
            System.out.println(first.state() == Subtask.State.SUCCESS ? first.get() : 0);
        }
    }
}
