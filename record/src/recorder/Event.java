package recorder;

/** An event of a recording, in the order in which the rules allow them. */
sealed interface Event {
    /** The call of a task. */
    record Did(RecordedTask task, Op op) implements Event {}

    /** The end of a close that waited. */
    record Closed(RecordedTask task) implements Event {}

    /** An interrupt of a task from outside of the rules: by Thread.interrupt(), or by an executor. */
    record Interrupted(RecordedTask task) implements Event {}

    /** The time of a scope was up. */
    record Expired(RecordedScope scope) implements Event {}
}
