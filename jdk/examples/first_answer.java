import java.util.concurrent.StructuredTaskScope.*;

int mirror(StructuredTaskScope<?, ?> scope, int number) {
    if (scope.isCancelled()) throw new IllegalStateException("0");   // somebody has answered already
    return number;
}

void main() throws InterruptedException {
    try (var scope = StructuredTaskScope.open(Joiner.<Integer>anySuccessfulResultOrThrow())) {
        scope.fork(() -> mirror(scope, 5));
        scope.fork(() -> mirror(scope, 9));
        IO.println("success " + scope.join());
    }
}
