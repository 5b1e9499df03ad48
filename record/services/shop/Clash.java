package shop;

import java.util.concurrent.StructuredTaskScope;
import java.util.concurrent.StructuredTaskScope.FailedException;
import java.util.concurrent.StructuredTaskScope.Joiner;
import java.util.concurrent.ThreadLocalRandom;

/** An inner scope comes to its result while the outer one is cancelled. */
public class Clash {
    private static void spin() {
        long end = System.nanoTime() + ThreadLocalRandom.current().nextInt(60_000);
        while (System.nanoTime() < end) Thread.onSpinWait();
    }

    private static int answer(int number) {
        spin();
        return number;
    }

    private static void mayFail() {
        spin();
        if (ThreadLocalRandom.current().nextBoolean()) throw new IllegalStateException("boom");
    }

    private static int inner() throws InterruptedException {
        try (var scope = StructuredTaskScope.open(Joiner.<Integer>allSuccessfulOrThrow())) {
            var first = scope.fork(() -> answer(1));
            var second = scope.fork(() -> answer(2));
            scope.join();
            return first.get() + second.get();
        }
    }

    private static boolean outer() throws InterruptedException {
        try (var scope = StructuredTaskScope.open()) {
            scope.fork(Clash::inner);
            scope.fork(Clash::inner);
            scope.fork(() -> mayFail());
            scope.join();
            return true;
        } catch (FailedException e) {
            return false;
        }
    }

    public static void main(String[] args) throws Exception {
        int times = args.length > 0 ? Integer.parseInt(args[0]) : 1, succeeded = 0;
        for (int n = 0; n < times; n++) if (outer()) succeeded++;
        System.out.println(succeeded + " of " + times + " succeeded");
    }
}
