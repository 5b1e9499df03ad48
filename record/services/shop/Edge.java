package shop;

import java.time.Duration;
import java.util.concurrent.StructuredTaskScope;
import java.util.concurrent.StructuredTaskScope.FailedException;
import java.util.concurrent.StructuredTaskScope.Joiner;
import java.util.concurrent.ThreadLocalRandom;

/** Subtasks end just when the time is up, and there are forks, questions and an inner scope around that moment. */
public class Edge {
    private static int spin(StructuredTaskScope<?, ?> scope) throws InterruptedException {
        long end = System.nanoTime() + 1_000_000 + ThreadLocalRandom.current().nextInt(1_200_000);
        while (System.nanoTime() < end) {
            if (scope.isCancelled() && Thread.interrupted()) throw new InterruptedException();
        }
        return 1;
    }

    private static int late(int millis) throws InterruptedException {
        Thread.sleep(millis);
        return millis;
    }

    private static int first() throws InterruptedException {
        try (var inner = StructuredTaskScope.open(Joiner.<Integer>anySuccessfulResultOrThrow())) {
            inner.fork(() -> late(1));
            inner.fork(() -> late(2));
            return inner.join();
        }
    }

    private static boolean inTime() throws InterruptedException {
        Duration timeout = Duration.ofNanos(1_500_000 + ThreadLocalRandom.current().nextInt(500_000));
        try (var scope = StructuredTaskScope.open(Joiner.<Integer>allSuccessfulOrThrow(), it -> it.withTimeout(timeout))) {
            for (int n = 0; n < 6; n++) {
                scope.fork(() -> spin(scope));
                if (n == 3) Thread.sleep(1);
            }
            scope.fork(() -> first());
            scope.join();
            return true;
        } catch (StructuredTaskScope.TimeoutException | FailedException e) {
            return false;
        }
    }

    public static void main(String[] args) throws Exception {
        int times = args.length > 0 ? Integer.parseInt(args[0]) : 1, inTime = 0;
        for (int n = 0; n < times; n++) if (inTime()) inTime++;
        System.out.println(inTime + " of " + times + " were in time");
    }
}
