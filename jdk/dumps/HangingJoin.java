// An owner that hangs in `join`, since one of two subtasks waits for a value that nobody puts into a queue.
import java.util.concurrent.LinkedBlockingQueue;
import java.util.concurrent.StructuredTaskScope;

class HangingJoin {
    static final LinkedBlockingQueue<String> QUEUE = new LinkedBlockingQueue<>();

    static String take() throws InterruptedException {
        return QUEUE.take();
    }

    public static void main(String[] args) throws InterruptedException {
        IO.println("hangs");
        try (var scope = StructuredTaskScope.open()) {
            scope.fork(() -> "done");
            scope.fork(HangingJoin::take);
            scope.join();
        }
    }
}
//= thread N main: waits at join of scope 0, HangingJoin.java:17 in main
//=   scope 0
//=     thread N: waits in LinkedBlockingQueue.take, HangingJoin.java:9 in take
