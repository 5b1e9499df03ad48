package shop;

import java.util.concurrent.Executors;
import java.util.concurrent.StructuredTaskScope;
import java.util.concurrent.ThreadLocalRandom;
import java.util.concurrent.TimeUnit;
import java.util.concurrent.atomic.AtomicReference;

/** Interrupts from outside: a subtask interrupts its sibling, and an executor its worker. */
public class Outside {
    private static int sleeps(AtomicReference<Thread> me) throws InterruptedException {
        me.set(Thread.currentThread());
        Thread.sleep(2);
        return 1;
    }

    private static boolean interrupts(AtomicReference<Thread> sibling) throws InterruptedException {
        Thread.sleep(1);
        if (sibling.get() != null) sibling.get().interrupt();
        return Thread.interrupted();
    }

    private static int handle() throws InterruptedException {
        try (var scope = StructuredTaskScope.open()) {
            AtomicReference<Thread> sibling = new AtomicReference<>();
            scope.fork(() -> sleeps(sibling));
            scope.fork(() -> interrupts(sibling));
            scope.join();
            return 1;
        }
    }

    public static void main(String[] args) throws Exception {
        int times = args.length > 0 ? Integer.parseInt(args[0]) : 1;
        for (int n = 0; n < times; n++) {
            var executor = Executors.newSingleThreadExecutor();
            executor.submit(() -> handle());
            Thread.sleep(ThreadLocalRandom.current().nextInt(3), 500_000 + ThreadLocalRandom.current().nextInt(499_999));
            executor.shutdownNow();
            executor.awaitTermination(1, TimeUnit.SECONDS);
        }
    }
}
