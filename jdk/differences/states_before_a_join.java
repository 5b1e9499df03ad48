// Prints: a sibling reads 7
// Prints: the owner sees SUCCESS
// Prints: get() throws IllegalStateException
// By the rules a sibling can ask for nothing of it, and the owner counts no states before a join.
import java.util.concurrent.StructuredTaskScope.*;
import java.util.concurrent.StructuredTaskScope.Subtask.State;

void main() throws InterruptedException {
    try (var scope = StructuredTaskScope.open(Joiner.<Integer>awaitAll())) {
        var seven = scope.fork(() -> 7);
        while (seven.state() != State.SUCCESS) Thread.onSpinWait();
        var read = new CountDownLatch(1);
        scope.fork(() -> { IO.println("a sibling reads " + seven.get()); read.countDown(); return 0; });
        read.await();
        IO.println("the owner sees " + seven.state());
        try {
            seven.get();
        } catch (IllegalStateException e) {
            IO.println("get() throws IllegalStateException");
        }
        scope.join();
    }
}
