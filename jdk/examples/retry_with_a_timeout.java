import java.util.concurrent.StructuredTaskScope.*;

static final long CACHED = 7;

long ask(long server) {
    return 100 + server;
}

long price() throws InterruptedException {
    for (int attempt = 1; attempt <= 2; attempt++) {
        var joiner = Joiner.<Long>anySuccessfulResultOrThrow();
        try (var scope = StructuredTaskScope.open(joiner, it -> it.withTimeout(Duration.ofSeconds(1)))) {
            scope.fork(() -> ask(1));
            scope.fork(() -> ask(2));
            return scope.join();
        } catch (StructuredTaskScope.TimeoutException | FailedException e) {
            // the next attempt
        }
    }
    return CACHED;
}

void main() throws InterruptedException {
    IO.println("success " + price());
}
