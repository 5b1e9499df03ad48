import java.util.concurrent.StructuredTaskScope.*;
import java.util.concurrent.StructuredTaskScope.Subtask.State;

int leaf(int among) {
    return 60 / among;
}

int region(int first, int second) throws InterruptedException {
    try (var scope = StructuredTaskScope.open(Joiner.<Integer>allSuccessfulOrThrow())) {
        scope.fork(() -> leaf(first));
        scope.fork(() -> leaf(second));
        return scope.join().mapToInt(Subtask::get).sum();
    }
}

void main() throws InterruptedException {
    try (var scope = StructuredTaskScope.open(Joiner.<Integer>awaitAll())) {
        var regions = List.of(scope.fork(() -> region(2, 3)), scope.fork(() -> region(4, 0)));
        scope.join();
        int sum = regions.stream().filter(it -> it.state() == State.SUCCESS).mapToInt(Subtask::get).sum();
        IO.println("success " + (1000 * sum + regions.stream().filter(it -> it.state() == State.FAILED).count()));
    }
}
