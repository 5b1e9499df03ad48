import java.util.concurrent.StructuredTaskScope.*;
import java.util.concurrent.StructuredTaskScope.Subtask.State;

int part(int number, int millis) throws InterruptedException {
    Thread.sleep(millis);
    return number;
}

void main() throws InterruptedException {
    List<Subtask<Integer>> parts = new ArrayList<>();
    try (var scope = StructuredTaskScope.open(Joiner.<Integer>awaitAll(), it -> it.withTimeout(Duration.ofMillis(100)))) {
        parts.add(scope.fork(() -> part(20, 0)));
        parts.add(scope.fork(() -> part(22, 10_000)));
        scope.join();
    } catch (StructuredTaskScope.TimeoutException e) { }
    // After a timeout the owner may call get() only after close.
    IO.println("success " + parts.stream().filter(it -> it.state() == State.SUCCESS).mapToInt(Subtask::get).sum());
}
