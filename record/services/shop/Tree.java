package shop;

import java.util.concurrent.StructuredTaskScope;
import java.util.concurrent.StructuredTaskScope.Joiner;

/** Adds the numbers of an array by halves. */
public class Tree {
    private static int sum(int[] all, int from, int to) throws InterruptedException {
        if (to - from == 1) return all[from];
        try (var scope = StructuredTaskScope.open(Joiner.<Integer>allSuccessfulOrThrow())) {
            int middle = (from + to) / 2;
            var left = scope.fork(() -> sum(all, from, middle));
            var right = scope.fork(() -> sum(all, middle, to));
            scope.join();
            return left.get() + right.get();
        }
    }

    public static void main(String[] args) throws Exception {
        int[] all = new int[args.length > 0 ? Integer.parseInt(args[0]) : 8];
        for (int n = 0; n < all.length; n++) all[n] = n;
        System.out.println(sum(all, 0, all.length));
    }
}
