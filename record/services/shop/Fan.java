package shop;

import java.util.concurrent.StructuredTaskScope;
import java.util.concurrent.StructuredTaskScope.Joiner;

/** Forks many subtasks from one line. */
public class Fan {
    public static void main(String[] args) throws Exception {
        int many = args.length > 0 ? Integer.parseInt(args[0]) : 10_000;
        try (var scope = StructuredTaskScope.open(Joiner.<Integer>allSuccessfulOrThrow())) {
            for (int n = 0; n < many; n++) {
                int number = n;
                scope.fork(() -> number);
            }
            System.out.println(scope.join().count());
        }
    }
}
