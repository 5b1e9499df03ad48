import java.util.concurrent.StructuredTaskScope.*;

int ask(int number) throws InterruptedException {
    if (Thread.interrupted()) throw new InterruptedException();
    return number;
}

void main() throws InterruptedException {
    try (var scope = StructuredTaskScope.open(Joiner.<Integer>anySuccessfulResultOrThrow())) {
        for (int number : List.of(10, 20, 30)) scope.fork(() -> ask(number));
        IO.println("success " + scope.join());
    }
}
