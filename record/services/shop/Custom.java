package shop;

import java.util.List;
import java.util.NoSuchElementException;
import java.util.Queue;
import java.util.concurrent.ConcurrentLinkedQueue;
import java.util.concurrent.StructuredTaskScope;
import java.util.concurrent.StructuredTaskScope.FailedException;
import java.util.concurrent.StructuredTaskScope.Joiner;
import java.util.concurrent.StructuredTaskScope.Subtask;
import java.util.concurrent.ThreadLocalRandom;

/** A joiner of its own, for which two answers are enough; and a predicate, on platform threads. */
public class Custom {
    static final class Two implements Joiner<Integer, List<Integer>> {
        private final Queue<Integer> came = new ConcurrentLinkedQueue<>();

        @Override
        public boolean onComplete(Subtask<? extends Integer> subtask) {
            if (subtask.state() == Subtask.State.SUCCESS) came.add(subtask.get());
            return came.size() >= 2;
        }

        @Override
        public List<Integer> result() {
            if (came.size() < 2) throw new NoSuchElementException("fewer than two");
            return List.copyOf(came);
        }
    }

    private static int work(int number) throws InterruptedException {
        Thread.sleep(ThreadLocalRandom.current().nextInt(4));
        if (ThreadLocalRandom.current().nextInt(3) == 0) throw new IllegalStateException("down");
        return number;
    }

    private static void two() throws InterruptedException {
        try (var scope = StructuredTaskScope.open(new Two())) {
            for (int n = 1; n <= 4; n++) {
                int number = n;
                scope.fork(() -> work(number));
            }
            System.out.println("two of " + scope.join());
        } catch (FailedException e) {
            System.out.println(e.getCause().getMessage());
        }
    }

    private static void untilOneFails() throws InterruptedException {
        Joiner<Integer, ?> joiner = Joiner.<Integer>allUntil(it -> it.state() == Subtask.State.FAILED);
        try (var scope = StructuredTaskScope.open(joiner, it -> it.withThreadFactory(Thread.ofPlatform().factory()))) {
            for (int n = 1; n <= 4; n++) {
                int number = n;
                scope.fork(() -> work(number));
            }
            scope.join();
        }
    }

    public static void main(String[] args) throws Exception {
        int times = args.length > 0 ? Integer.parseInt(args[0]) : 1;
        for (int n = 0; n < times; n++) {
            two();
            untilOneFails();
        }
    }
}
