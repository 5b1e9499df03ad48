// Prints: two subtasks are SUCCESS
// By the rules a scope with the joiner any has one: the first success cancels it at once.
import java.util.concurrent.StructuredTaskScope.*;
import java.util.concurrent.StructuredTaskScope.Subtask.State;

boolean hasTwo() throws InterruptedException {
    var ready = new AtomicInteger();
    Callable<Integer> task = () -> {
        ready.incrementAndGet();
        for (int n = 0; ready.get() < 3 && n < 100_000; n++) Thread.onSpinWait();
        return 1;
    };
    try (var scope = StructuredTaskScope.open(Joiner.<Integer>anySuccessfulResultOrThrow())) {
        var subtasks = List.of(scope.fork(task), scope.fork(task), scope.fork(task));
        scope.join();
        return subtasks.stream().filter(it -> it.state() == State.SUCCESS).count() > 1;
    }
}

void main() throws InterruptedException {
    for (int n = 0; n < 1_000_000; n++) {
        if (hasTwo()) {
            IO.println("two subtasks are SUCCESS");
            return;
        }
    }
}
