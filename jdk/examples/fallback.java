import java.util.concurrent.StructuredTaskScope.*;
import java.util.concurrent.StructuredTaskScope.Subtask.State;

int share(int among) {
    return 100 / among;
}

void main() throws InterruptedException {
    try (var scope = StructuredTaskScope.open(Joiner.<Integer>awaitAll())) {
        var none = scope.fork(() -> share(0));
        var five = scope.fork(() -> share(5));
        scope.join();
        int came = Stream.of(none, five).filter(it -> it.state() == State.SUCCESS).mapToInt(Subtask::get).sum();
        IO.println("success " + (none.state() == State.FAILED ? came + 1000 : came));
    }
}
