import java.util.concurrent.StructuredTaskScope.*;
import java.util.concurrent.StructuredTaskScope.Subtask.State;

int part(int number) {
    return number * number;
}

void main() throws InterruptedException {
    List<Subtask<Integer>> parts = new ArrayList<>();
    boolean isLate = false;
    try (var scope = StructuredTaskScope.open(Joiner.<Integer>awaitAll(), it -> it.withTimeout(Duration.ofSeconds(5)))) {
        IntStream.rangeClosed(1, 3).forEach(number -> parts.add(scope.fork(() -> part(number))));
        scope.join();
    } catch (StructuredTaskScope.TimeoutException e) {
        isLate = true;
    }
    var came = parts.stream().filter(it -> it.state() == State.SUCCESS).map(Subtask::get).toList();
    int sum = came.stream().mapToInt(it -> it).sum();
    IO.println("success " + (isLate ? 1000 * sum + parts.size() - came.size() : sum));
}
