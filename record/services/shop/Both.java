package shop;

import java.util.concurrent.StructuredTaskScope;
import java.util.concurrent.StructuredTaskScope.Joiner;

/** Reads two subtasks under awaitAll, and doesn't ask whether they succeeded. */
public class Both {
    public static void main(String[] args) throws Exception {
        try (var scope = StructuredTaskScope.open(Joiner.<Integer>awaitAll())) {
            var first = scope.fork(() -> 1);
            var second = scope.fork(() -> 2);
            scope.join();
            System.out.println(first.get() + second.get());
        }
    }
}
