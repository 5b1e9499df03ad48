// A subtask that ignores its interrupt: after the timeout `close` waits for it.
import java.time.Duration;
import java.util.concurrent.StructuredTaskScope;
import java.util.concurrent.StructuredTaskScope.Joiner;

class IgnoredInterrupt {
    static volatile long turns;

    static String spin() {
        while (true) {
            turns++;
        }
    }

    public static void main(String[] args) throws InterruptedException {
        IO.println("hangs");
        try (var scope = StructuredTaskScope.open(Joiner.awaitAll(), it -> it.withName("impatient").withTimeout(Duration.ofMillis(200)))) {
            scope.fork(IgnoredInterrupt::spin);
            scope.join();
        }
    }
}
//= thread N main: waits at close of scope 0, IgnoredInterrupt.java:17 in main
//=   scope 0 impatient
//=     thread N: runs, IgnoredInterrupt.java:11 in spin
