import java.util.concurrent.StructuredTaskScope.*;

int leaf() throws InterruptedException {
    Thread.sleep(10_000);          // ends at once, by an interrupt
    return 0;
}

int boom() {
    throw new IllegalStateException("8");
}

int branch() throws InterruptedException {
    try (var scope = StructuredTaskScope.open(Joiner.<Integer>awaitAll())) {
        scope.fork(this::leaf);
        scope.join();              // interrupted; close then interrupts the leaf
        return 0;
    }
}

void main() throws InterruptedException {
    try (var scope = StructuredTaskScope.open()) {
        scope.fork(this::branch);
        scope.fork(this::boom);
        scope.join();
        IO.println("success 0");
    } catch (FailedException e) {
        IO.println("failed " + e.getCause().getMessage());
    }
}
