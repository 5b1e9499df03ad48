package shop;

import java.util.concurrent.StructuredTaskScope;
import java.util.concurrent.StructuredTaskScope.Joiner;
import java.util.concurrent.StructuredTaskScope.Subtask;

/** Its joiner takes a lock that the owner holds while it forks. In Java nothing hangs, and the recorder gives the recording up. */
public class Held {
    private static final Object LOCK = new Object();

    static final class Counting implements Joiner<Integer, Integer> {
        private int came;

        @Override
        public boolean onComplete(Subtask<? extends Integer> subtask) {
            synchronized (LOCK) {
                came++;
                return false;
            }
        }

        @Override
        public Integer result() {
            synchronized (LOCK) {
                return came;
            }
        }
    }

    public static void main(String[] args) throws Exception {
        try (var scope = StructuredTaskScope.open(new Counting())) {
            synchronized (LOCK) {
                for (int n = 0; n < 5; n++) {
                    scope.fork(() -> 1);
                    Thread.sleep(5);
                }
            }
            System.out.println(scope.join());
        }
    }
}
