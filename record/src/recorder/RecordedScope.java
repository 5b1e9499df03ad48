package recorder;

import java.util.ArrayList;
import java.util.List;
import java.util.concurrent.StructuredTaskScope;

/** A scope of a recording. All is guarded by the recording's lock. */
final class RecordedScope {
    final Recording recording;
    final RecordedTask owner;
    final String joiner;           // as in a text; custom and a class for a joiner of the application
    int birth = -1;
    StructuredTaskScope<?, ?> real;
    boolean isTimed, isCancelled, isExpired, isJoined, isTried, isClosed;
    Op closing;                    // a close that has been called, but that nobody has noticed yet
    final List<RecordedTask> subtasks = new ArrayList<>();
    int successes, failures;
    int doneAt = -1;               // the event since which a join has a result
    String canceller;              // success or failed: the kind of end that made the joiner cancel
    int cancelledAt;               // how many of that kind had come

    RecordedScope(RecordedTask owner, String joiner) {
        this.recording = owner.recording;
        this.owner = owner;
        this.joiner = joiner;
    }

    boolean anyLives() {
        for (RecordedTask it : subtasks) if (it.lives) return true;
        return false;
    }

    void cancel() {
        if (isCancelled) return;
        isCancelled = true;
        int now = recording.now();
        if (doneAt < 0) doneAt = now;
        for (RecordedTask it : subtasks) if (it.lives) it.setFlag(now);
    }

    /** The joiner is told of the end of a subtask, and says whether to cancel. */
    void told(boolean isSuccess, boolean cancels) {
        if (isSuccess) successes++;
        else failures++;
        if (!cancels || isCancelled) return;
        canceller = isSuccess ? "success" : "failed";
        cancelledAt = isSuccess ? successes : failures;
        cancel();
    }

    /** Adds the cause of a cancel, if the JDK has cancelled this scope and no event says why. */
    void observe() {
        if (!isCancelled && !isClosed && real.isCancelled()) because();
    }

    /** Adds what cancelled this scope: a close that was called, or else its timer. */
    void because() {
        if (closing != null) beginClose();
        else if (isTimed && !isExpired) expire();
        else {
            recording.say("scope " + birth + " was cancelled in a way that the rules don't have");
            isCancelled = true;
        }
    }

    void expire() {
        recording.add(new Event.Expired(this));
        isExpired = true;
        cancel();
    }

    /** The first step of the close that has been called. */
    void beginClose() {
        Op op = closing;
        closing = null;
        op.isTwo = anyLives();
        recording.log(owner, op);
        cancel();
    }
}
