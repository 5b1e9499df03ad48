import java.util.concurrent.StructuredTaskScope.*;
import java.util.concurrent.StructuredTaskScope.Subtask.State;

void main() throws InterruptedException {
    List<Subtask<Integer>> parts = new ArrayList<>();
    try (var scope = StructuredTaskScope.open(Joiner.<Integer>awaitAll(), it -> it.withTimeout(Duration.ofSeconds(5)))) {
        parts.add(scope.fork(() -> 20));
        parts.add(scope.fork(() -> 20));
        scope.join();
    } catch (StructuredTaskScope.TimeoutException e) { }
    // After a timeout JDK 25 allows the owner get() only after close, and profile 2 of sts only before it.
    IO.println("success " + parts.stream().filter(it -> it.state() == State.SUCCESS).mapToInt(Subtask::get).sum());
}
