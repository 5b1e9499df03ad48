// Prints: InterruptedException, isCancelled() is true
// By the rules the result goes first, and prints: 7
import java.util.concurrent.StructuredTaskScope.*;

void main() throws InterruptedException {
    System.setProperty("jdk.virtualThreadScheduler.parallelism", "1");     // the owner shares its carrier
    System.setProperty("jdk.virtualThreadScheduler.maxPoolSize", "1");
    var answer = new CountDownLatch(1);
    var subtask = new AtomicReference<Thread>();
    Thread owner = Thread.ofVirtual().start(() -> {
        try (var scope = StructuredTaskScope.open(Joiner.<Integer>anySuccessfulResultOrThrow(),
                it -> it.withThreadFactory(task -> subtask.updateAndGet(_ -> new Thread(task))))) {
            scope.fork(() -> { answer.await(); return 7; });
            try {
                IO.println(scope.join());
            } catch (InterruptedException e) {
                IO.println("InterruptedException, isCancelled() is " + scope.isCancelled());
            }
        }
    });
    while (owner.getState() != Thread.State.WAITING) Thread.sleep(1);
    var isBusy = new AtomicBoolean(true);
    var started = new CountDownLatch(1);
    Thread.ofVirtual().start(() -> { started.countDown(); while (isBusy.get()) Thread.onSpinWait(); });
    started.await();
    answer.countDown();
    subtask.get().join();          // its success has cancelled the scope, and the owner hasn't run since
    owner.interrupt();
    isBusy.set(false);
    owner.join();
}
