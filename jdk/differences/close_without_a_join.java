// Prints: StructureViolationException
// By the rules it is an illegal state, which is tested first. If nothing is open inside, JDK 25 throws IllegalStateException, too.
void main() throws InterruptedException {
    var scope = StructuredTaskScope.open();
    scope.fork(() -> 1);
    var inner = StructuredTaskScope.open();
    try {
        scope.close();
    } catch (IllegalStateException | StructureViolationException e) {
        IO.println(e.getClass().getSimpleName());
    }
}
