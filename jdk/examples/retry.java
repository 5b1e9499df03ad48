import java.util.concurrent.StructuredTaskScope.*;

int attempt(int number) throws InterruptedException {
    if (Thread.interrupted()) throw new InterruptedException();
    return 100 + number;
}

void main() throws InterruptedException {
    for (int number : List.of(1, 2, 3)) {
        try (var scope = StructuredTaskScope.open(Joiner.<Integer>anySuccessfulResultOrThrow())) {
            scope.fork(() -> attempt(number));
            IO.println("success " + scope.join());
            return;
        } catch (FailedException e) { }
    }
    IO.println("failed " + 3);
}
