import java.util.concurrent.StructuredTaskScope.*;

int square(int number) {
    return number * number;
}

void main() throws InterruptedException {
    try (var scope = StructuredTaskScope.open(Joiner.<Integer>allSuccessfulOrThrow())) {
        scope.fork(() -> square(3));
        scope.fork(() -> square(4));
        scope.fork(() -> square(5));
        IO.println("success " + scope.join().mapToInt(Subtask::get).sum());
    }
}
