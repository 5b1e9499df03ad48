import java.util.concurrent.StructuredTaskScope.*;

int part(int number, int millis) throws InterruptedException {
    Thread.sleep(millis);
    return number;
}

void main() throws InterruptedException {
    try (var scope = StructuredTaskScope.open(Joiner.<Integer>awaitAll(), it -> it.withTimeout(Duration.ofMillis(100)))) {
        var first = scope.fork(() -> part(20, 0));
        var second = scope.fork(() -> part(22, 10_000));
        scope.join();
        IO.println("success " + (first.get() + second.get()));
    } catch (StructuredTaskScope.TimeoutException e) {
        IO.println("success 0");
    }
}
