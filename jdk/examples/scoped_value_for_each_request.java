import java.util.concurrent.StructuredTaskScope.*;

final ScopedValue<Integer> REQUEST = ScopedValue.newInstance();

int log() {
    return REQUEST.get();
}

int work() throws InterruptedException {
    try (var scope = StructuredTaskScope.open(Joiner.<Integer>anySuccessfulResultOrThrow())) {
        scope.fork(this::log);
        return scope.join();
    }
}

int request(int number) throws InterruptedException {
    return ScopedValue.where(REQUEST, number).call(this::work);
}

void main() throws InterruptedException {
    try (var scope = StructuredTaskScope.open(Joiner.<Integer>allSuccessfulOrThrow())) {
        var seven = scope.fork(() -> request(7));
        var eight = scope.fork(() -> request(8));
        scope.join();
        IO.println("success " + (100 * seven.get() + eight.get()));
    }
}
