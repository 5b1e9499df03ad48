package shop;

import java.time.Duration;
import java.util.ArrayList;
import java.util.List;
import java.util.concurrent.Executors;
import java.util.concurrent.StructuredTaskScope;
import java.util.concurrent.StructuredTaskScope.Joiner;
import java.util.concurrent.StructuredTaskScope.Subtask;
import java.util.concurrent.ThreadLocalRandom;

/** Asks some suppliers for a price, and takes what has come after 50 milliseconds. */
public class Quotes {
    record Quote(int supplier, double price) {}

    Quote ask(int supplier) throws InterruptedException {
        Thread.sleep(ThreadLocalRandom.current().nextInt(60));
        if (ThreadLocalRandom.current().nextInt(10) == 0) throw new IllegalStateException("supplier " + supplier + " is down");
        return new Quote(supplier, 10 + supplier);
    }

    List<Quote> quotes(int suppliers) throws InterruptedException {
        List<Subtask<Quote>> asked = new ArrayList<>();
        try (var scope = StructuredTaskScope.open(Joiner.<Quote>awaitAll(), it -> it.withTimeout(Duration.ofMillis(50)))) {
            for (int n = 1; n <= suppliers; n++) {
                int supplier = n;
                asked.add(scope.fork(() -> ask(supplier)));
            }
            scope.join();
        } catch (StructuredTaskScope.TimeoutException e) {
            // what has come is enough
        }
        return asked.stream().filter(it -> it.state() == Subtask.State.SUCCESS).map(Subtask::get).toList();
    }

    public static void main(String[] args) throws Exception {
        int requests = args.length > 0 ? Integer.parseInt(args[0]) : 1;
        int suppliers = args.length > 1 ? Integer.parseInt(args[1]) : 20;
        Quotes quotes = new Quotes();
        try (var executor = Executors.newVirtualThreadPerTaskExecutor()) {
            for (int i = 0; i < requests; i++)
                executor.submit(() -> {
                    System.out.println(quotes.quotes(suppliers).size() + " quotes");
                    return null;
                });
        }
    }
}
