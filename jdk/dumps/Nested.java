// A scope in a subtask of another scope, in which a subtask sleeps for ever.
import java.util.concurrent.StructuredTaskScope;
import java.util.concurrent.StructuredTaskScope.Joiner;

class Nested {
    static String ask(String mirror) throws InterruptedException {
        try (var scope = StructuredTaskScope.open(Joiner.awaitAll(), it -> it.withName("connection"))) {
            scope.fork(() -> {
                Thread.sleep(Long.MAX_VALUE);
                return mirror;
            });
            scope.join();
        }
        return mirror;
    }

    public static void main(String[] args) throws InterruptedException {
        IO.println("hangs");
        try (var scope = StructuredTaskScope.open(Joiner.<String>anySuccessfulResultOrThrow(), it -> it.withName("mirrors"))) {
            scope.fork(() -> ask("a"));
            scope.join();
        }
    }
}
//= thread N main: waits at join of scope 0, Nested.java:21 in main
//=   scope 0 mirrors
//=     thread N: waits at join of scope 1, Nested.java:12 in ask
//=       scope 1 connection
//=         thread N: waits in Thread.sleep, Nested.java:9
