import java.util.concurrent.StructuredTaskScope.*;

final ScopedValue<Integer> A = ScopedValue.newInstance(), B = ScopedValue.newInstance();

int only(Callable<Integer> task) throws InterruptedException {
    try (var scope = StructuredTaskScope.open(Joiner.<Integer>anySuccessfulResultOrThrow())) {
        scope.fork(task);
        return scope.join();
    }
}

int leaf() {
    return A.get() + B.get();
}

int middle() throws InterruptedException {
    int inner = ScopedValue.where(B, 30).call(() -> only(this::leaf));
    return inner + B.get();
}

void main() throws InterruptedException {
    IO.println("success " + ScopedValue.where(A, 4).where(B, 6).call(() -> only(this::middle)));
}
