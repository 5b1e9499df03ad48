import com.sun.management.OperatingSystemMXBean;
import java.lang.management.ManagementFactory;
import java.util.Arrays;
import java.util.concurrent.Callable;
import java.util.concurrent.StructuredTaskScope;
import java.util.concurrent.StructuredTaskScope.Joiner;

/** Times scopes of JDK 25, with the threads and the joiner that bench/run.py gives its programs.  usage: ScopesBench [RUNS] */
final class ScopesBench {
    private ScopesBench() {}

    /** Opens a scope, forks the task in it this many times, joins and closes. */
    private static long scope(int forks, Callable<Long> task) throws InterruptedException {
        try (var scope = StructuredTaskScope.open(Joiner.<Long>awaitAll())) {
            for (int i = 0; i < forks; i++) {
                scope.fork(task);
            }
            scope.join();
        }
        return forks;
    }

    /** This many scopes within one another, each opened by the only subtask of the one before. */
    private static long chain(int depth) throws InterruptedException {
        return depth == 0 ? 0 : scope(1, () -> chain(depth - 1));
    }

    private static long times(int count, Callable<Long> task) throws Exception {
        long sum = 0;
        for (int i = 0; i < count; i++) {
            sum += task.call();
        }
        return sum;
    }

    /** Prints how long the first run takes, the least and the median, and the least time of all processors; in milliseconds. */
    private static void time(String name, int runs, Callable<Long> task) throws Exception {
        var system = (OperatingSystemMXBean) ManagementFactory.getOperatingSystemMXBean();
        double[] clock = new double[runs];
        double[] processors = new double[runs];
        for (int i = 0; i < runs; i++) {
            long start = System.nanoTime();
            long busy = system.getProcessCpuTime();
            task.call();
            processors[i] = (system.getProcessCpuTime() - busy) / 1e6;
            clock[i] = (System.nanoTime() - start) / 1e6;
        }
        double first = clock[0];
        Arrays.sort(clock);
        Arrays.sort(processors);
        System.out.printf("%-46s%9.1f%9.1f%9.1f%12.1f%n", name, first, clock[0], clock[runs / 2], processors[0]);
    }

    private static void all(String owner, int runs) {
        try {
            System.out.printf("%-46s%9s%9s%9s%12s%n", "ms, " + owner + " opens the first scope", "first", "least", "median", "processors");
            time("110,000 scopes with one subtask", runs, () -> times(110_000, () -> scope(1, () -> 0L)));
            time("one scope with 60,000 subtasks", runs, () -> scope(60_000, () -> 0L));
            time("1,000 chains of 62 scopes", runs, () -> times(1_000, () -> chain(62)));
        } catch (Exception e) {
            throw new IllegalStateException(e);
        }
    }

    public static void main(String[] words) throws InterruptedException {
        int runs = words.length > 0 ? Integer.parseInt(words[0]) : 30;
        Thread.ofVirtual().start(() -> all("a virtual thread", runs)).join();
        Thread.ofPlatform().start(() -> all("a platform thread", runs)).join();
    }
}
