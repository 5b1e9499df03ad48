import java.util.concurrent.StructuredTaskScope.*;

int ask(int server) {
    return 100 / server;
}

int hedge(StructuredTaskScope<?, ?> scope, int server) {
    if (scope.isCancelled()) throw new IllegalStateException("answered");
    return ask(server);
}

void main() throws InterruptedException {
    try (var scope = StructuredTaskScope.open(Joiner.<Integer>anySuccessfulResultOrThrow())) {
        scope.fork(() -> ask(5));
        scope.fork(() -> hedge(scope, 4));
        IO.println("success " + scope.join());
    }
}
