// Prints: SUCCESS 5
// By the rules the end of the subtask is a structure violation.
import java.util.concurrent.StructuredTaskScope.*;

int leaves() {
    StructuredTaskScope.open(Joiner.<Integer>awaitAll()).fork(() -> 1);    // closed by the end of the thread
    return 5;
}

void main() throws InterruptedException {
    try (var scope = StructuredTaskScope.open(Joiner.<Integer>awaitAll())) {
        var subtask = scope.fork(this::leaves);
        scope.join();
        IO.println(subtask.state() + " " + subtask.get());
    }
}
