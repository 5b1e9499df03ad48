import java.util.concurrent.StructuredTaskScope.*;

int kid() throws InterruptedException {
    Thread.sleep(100);
    return 7;
}

void main() throws InterruptedException {
    try (var scope = StructuredTaskScope.open(Joiner.<Integer>anySuccessfulResultOrThrow())) {
        scope.fork(this::kid);
        Thread.currentThread().interrupt();
        try {
            IO.println("success " + scope.join());
        } catch (InterruptedException e) {
            IO.println("success " + scope.join());     // JDK 25: join may be called once
        }
    } catch (IllegalStateException e) {
        IO.println("fault IllegalState");
    }
}
