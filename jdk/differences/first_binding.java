// Prints: StructureViolationException, the first time
// Prints: forked, the second time
// By the rules each fork is allowed: the binding has ended.
void main() throws InterruptedException {
    ScopedValue<Integer> key = ScopedValue.newInstance();
    for (var time : List.of("first", "second")) {
        try (var scope = StructuredTaskScope.open()) {
            ScopedValue.where(key, 1).run(() -> { });      // in the first run of this block: the thread's first binding
            scope.fork(() -> 1);
            scope.join();
            IO.println("forked, the " + time + " time");
        } catch (StructureViolationException e) {
            IO.println("StructureViolationException, the " + time + " time");
        }
    }
}
