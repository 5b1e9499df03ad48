// Prints: false
// The documentation of close says that it first cancels the scope. Here nobody can see the difference: nothing is left to cancel.
void main() throws InterruptedException {
    var scope = StructuredTaskScope.open();
    scope.fork(() -> 1);
    scope.join();
    scope.close();
    IO.println(scope.isCancelled());
}
