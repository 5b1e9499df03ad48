import java.util.concurrent.StructuredTaskScope.*;

int kid() {
    if (Thread.interrupted()) throw new IllegalStateException("9");
    return 5;
}

void main() throws InterruptedException {
    try (var scope = StructuredTaskScope.open(Joiner.<Integer>awaitAll())) {
        var kid = scope.fork(this::kid);
        scope.join();
        IO.println("success " + switch (kid.state()) {
            case SUCCESS -> kid.get();
            case FAILED -> kid.exception().getMessage();
            case UNAVAILABLE -> -1;
        });
    }
}
