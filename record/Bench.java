import java.util.concurrent.StructuredTaskScope;
import java.util.concurrent.StructuredTaskScope.Joiner;

/**
 * Prints the least time of a scope with N forks, in microseconds, and of a read of a scoped value, in nanoseconds.
 *
 * <p>All tasks are virtual threads. With one carrier (bench.py) no other thread has to be woken, so a round isn't disturbed by that.
 */
public class Bench {
    private static final int ROUNDS = 100, READS = 20_000;

    private static double scopes(int forks, int scopes) throws InterruptedException {
        long began = System.nanoTime(), sum = 0;
        for (int k = 0; k < scopes; k++) {
            try (var scope = StructuredTaskScope.open(Joiner.<Integer>allSuccessfulOrThrow())) {
                for (int n = 0; n < forks; n++) {
                    int number = n;
                    scope.fork(() -> number);
                }
                sum += scope.join().count();
            }
        }
        if (sum != (long) scopes * forks) throw new AssertionError();
        return (System.nanoTime() - began) / 1000.0 / scopes;
    }

    private static double reads() throws InterruptedException {
        ScopedValue<Integer> key = ScopedValue.newInstance();
        return ScopedValue.where(key, 7).call(() -> {
            try (var scope = StructuredTaskScope.open(Joiner.<Double>anySuccessfulResultOrThrow())) {
                scope.fork(() -> {
                    long began = System.nanoTime(), sum = 0;
                    for (int n = 0; n < READS; n++) sum += key.get();
                    return (System.nanoTime() - began) / (double) READS + (sum == 1 ? 1 : 0);
                });
                return scope.join();
            }
        });
    }

    public static void main(String[] args) throws Exception {
        Thread.ofVirtual().start(() -> {
            try {
                all();
            } catch (InterruptedException e) {
                System.err.println(e);
            }
        }).join();
    }

    private static void all() throws InterruptedException {
        for (int forks : new int[] {2, 20, 200}) {
            double least = Double.MAX_VALUE;
            for (int k = 0; k < ROUNDS; k++) least = Math.min(least, scopes(forks, 4000 / forks));
            System.out.println(forks + " forks: " + least);
        }
        double least = Double.MAX_VALUE;
        for (int k = 0; k < 10; k++) least = Math.min(least, reads());
        System.out.println("a read: " + least);
    }
}
