import java.io.BufferedOutputStream;
import java.io.BufferedReader;
import java.io.FileDescriptor;
import java.io.FileOutputStream;
import java.io.IOException;
import java.io.InputStreamReader;
import java.io.PrintStream;
import java.util.ArrayList;
import java.util.List;
import java.util.Map;
import java.util.TreeMap;
import java.util.concurrent.CopyOnWriteArrayList;
import java.util.concurrent.locks.LockSupport;
import java.util.function.BooleanSupplier;

/**
 * Plays texts and traces over a runtime of structured scopes, and prints its state after each event. jdk/README.md
 * defines what is printed; check.py compares it.
 *
 * <p>Each task is a thread that interprets its own frame and stops before each instruction. The player grants one
 * instruction at a time as the trace says, and then waits until each thread stops, has ended, or is parked in a join or a
 * close that nothing in the JVM would end.
 *
 * <p>Standard input has one case after another: {@code case ID}, the lines of the text, {@code %}, the lines of the trace,
 * and {@code .}. Of each it prints {@code case ID}, what {@code view} gives before the first event and, below a line
 * {@code after N EVENT}, after each, and {@code .}.
 *
 * <p>Properties: {@code scopes}, the class of the runtime (JdkScopes); {@code threads}, virtual or platform; {@code join},
 * late (it is called once it can't park) or early (at its first step); {@code timeout=N}, that a timeout is N milliseconds,
 * and a case where one may be up before the trace asks for it ends with a line {@code unasked}; {@code free=N}: no gates and no trace, the program
 * is run N times as it comes, and {@code COUNT OUTCOME} is printed for each outcome.
 */
public final class Player {
    private static final boolean IS_EARLY = "early".equals(System.getProperty("join"));
    private static final boolean IS_PLATFORM = "platform".equals(System.getProperty("threads"));
    private static final int FREE = Integer.getInteger("free", 0);
    private static final long PATIENCE = 120_000_000_000L;   // nanoseconds

    /** A thread didn't come to rest. */
    private static final class Stuck extends RuntimeException {
        Stuck(String what) {
            super(what);
        }
    }

    final Scopes scopes;
    final List<Task> tasks = new CopyOnWriteArrayList<>();
    final List<Task.Scope> births = new CopyOnWriteArrayList<>();
    final boolean isFree = FREE > 0;
    volatile boolean isOver;
    private final List<Code.Function> functions;
    private final StringBuilder printed = new StringBuilder();
    private final Task root;
    private long steps, events;

    private Player(Scopes scopes, List<Code.Function> functions) {
        this.scopes = scopes;
        this.functions = functions;
        this.root = new Task(this, functions.getLast(), null);
    }

    // ---- what tasks ask for

    Task unborn(String name, Task.Scope parent) {
        Code.Function function = functions.stream().filter(it -> it.name().equals(name)).findFirst().orElseThrow();
        return new Task(this, function, parent);
    }

    Task.Scope born(Object real, Task owner, String words, boolean isTimed) {
        Task.Scope scope = new Task.Scope(real, owner, births.size(), words, isTimed);
        births.add(scope);
        return scope;
    }

    // ---- waiting for rest

    /** Waits. If the player is a virtual thread, it shares its carrier with the tasks, and lets them run meanwhile. */
    private static void await(BooleanSupplier isDone, String what) {
        boolean isVirtual = Thread.currentThread().isVirtual();
        long end = 0;
        for (int n = 0; !isDone.getAsBoolean(); n++) {
            if (!isVirtual && n < 200) Thread.onSpinWait();
            else if (n < 300) Thread.yield();
            else {
                LockSupport.parkNanos(10_000);
                if (end == 0) end = System.nanoTime() + PATIENCE;
                else if (System.nanoTime() > end) throw new Stuck(what);
            }
        }
    }

    /** Waits until all that the last event set going has come to rest. */
    private void settle() {
        for (Task task : tasks) if (task.thread != null) await(task::isAtRest, "task " + task.birth);
        for (Task task : tasks)      // a wait that has lost its reason is over
            if (task.blocked != null)
                await(() -> task.isWoken() || task.mustWait(task.blocked), "the wake of task " + task.birth);
    }

    private Task faulted() {
        return tasks.stream().filter(it -> it.fault != null).findFirst().orElse(null);
    }

    // ---- events; each returns whether it counts

    private boolean step(int number) {
        if (number >= tasks.size()) return false;
        Task task = tasks.get(number);
        if (task.blocked != null) return leave(task);
        if (!task.isAlive() || !IS_EARLY && task.isBeforeWait()) return false;
        task.granted++;
        LockSupport.unpark(task.thread);
        await(task::isAtRest, "task " + task.birth);
        settle();
        if (task.fault == null && task.thread.isAlive() && !task.isAtGate()) task.blocked = task.instruction(task.at);
        return task.blocked == null || !task.blocked.is("join");
    }

    /** The step that a task takes out of a join or a close that it has left already. */
    private static boolean leave(Task task) {
        if (!task.isWoken()) return false;
        task.blocked = null;
        return true;
    }

    private boolean interrupt(int number) {
        if (number >= tasks.size() || tasks.get(number).thread == null) return false;
        boolean isAlive = tasks.get(number).isAlive();
        scopes.interrupt(tasks.get(number).thread);
        settle();
        return isAlive;
    }

    private boolean expire(int number) {
        if (number >= births.size()) return false;
        Object scope = births.get(number).real;
        births.get(number).isAsked = true;
        boolean wasCancelled = scopes.isCancelled(scope);
        scopes.expire(scope);
        settle();
        return scopes.isCancelled(scope) && !wasCancelled;
    }

    private void event(String line) {
        String[] words = line.split(" ");
        int number = (int) Math.min(Long.parseLong(words[1]), Integer.MAX_VALUE);
        boolean counts = switch (words[0]) {
            case "step" -> step(number);
            case "interrupt" -> interrupt(number);
            default -> expire(number);
        };
        if (counts && words[0].equals("step")) steps++;
        say("after " + ++events + " " + line + (counts ? "" : " idle"));
        view();
    }

    /** With early joins: the steps of the joins that the last event ended, right after it. */
    private void woken() {
        if (!IS_EARLY) return;
        for (Task task : tasks)
            if (task.isWoken() && task.blocked.is("join") && faulted() == null) event("step " + task.birth);
    }

    // ---- what is printed

    private void say(String line) {
        printed.append(line).append('\n');
    }

    private void view() {
        Task faulted = faulted();
        say(faulted != null ? faultWords(faulted) : !root.isAlive() && end(root) != null ? end(root) : "running");
        say("steps " + steps);
        if (faulted != null) return;
        for (Task task : tasks) say(taskLine(task));
        for (Task.Scope scope : births) say(scopeLine(scope));
    }

    private static String faultWords(Task task) {
        return "fault " + task.fault + " task " + task.birth + " in " + task.function.name() + " at " + task.at;
    }

    private static String end(Task task) {
        return task.value != null ? "success " + task.value : task.code != null ? "failed " + task.code : null;
    }

    private String taskLine(Task task) {
        int place = task.blocked != null ? task.at : task.pc;
        return "task " + task.birth + " under " + (task.scope == null ? "-" : task.scope.birth) + " in "
                + task.function.name() + " at " + place + " " + stand(task);
    }

    private String stand(Task task) {
        if (task.thread == null) return "never-started";
        if (task.isWoken()) return "woken";
        if (task.blocked != null) return waits(task, task.blocked);
        if (!task.isAlive()) return task.scope == null ? end(task) : heard(task);
        return (task.isBeforeWait() ? waits(task, task.instruction(task.pc)) : "ready") + (task.isFlagged() ? " interrupted" : "");
    }

    private static String waits(Task task, Code.Instruction it) {
        Task.Scope scope = it.is("join") || it.is("close") ? task.own(it) : null;
        return "waits " + (scope == null ? "at its end" : it.op() + " " + scope.birth);
    }

    private String heard(Task task) {
        return switch (scopes.state(task.subtask)) {
            case SUCCESS -> "success " + scopes.value(task.subtask);
            case FAILED -> "failed " + scopes.code(task.subtask);
            case UNAVAILABLE -> "unheard " + end(task);
        };
    }

    private String scopeLine(Task.Scope scope) {
        Code.Instruction blocked = scope.owner.blocked;
        boolean isClosing = blocked != null && blocked.is("close") && scope.owner.closing == scope;
        String said = "scope " + scope.birth + " of " + scope.owner.birth + " " + scope.words;
        if (scope.isClosed && !isClosing) return said + " closed" + (scope.isTimed ? " timed" : "");
        return said + (isClosing ? " closing" : " open") + (scope.isTimed ? " timed" : "")
                + (scopes.isCancelled(scope.real) ? " cancelled" : "");
    }

    // ---- a case

    private void start() {
        Runnable body = () -> {
            try {
                root.call();
            } catch (Scopes.Failure | Task.Killed e) { }
        };
        root.thread = IS_PLATFORM ? Thread.ofPlatform().daemon().unstarted(body) : Thread.ofVirtual().unstarted(body);
        root.thread.start();
    }

    /** Whether the time of a scope may be up, though the trace hasn't asked for it. */
    private boolean isUnasked() {
        return births.stream().anyMatch(it -> it.isTimed && !it.isAsked && scopes.mayBeUp(it.real));
    }

    private void play(List<String> trace) {
        start();
        try {
            settle();
            view();
            for (String line : trace) {
                event(line);
                woken();
                if (isUnasked()) {
                    say("unasked");
                    break;
                }
                if (faulted() != null || !root.isAlive()) break;
            }
            late();
        } catch (Stuck e) {
            say("stuck " + e.getMessage());
        } finally {
            end();
        }
    }

    /** Says what a misuse that waits throws once the threads that it waits for have ended. */
    private void late() {
        if (faulted() != null) return;
        List<Task> waiting = tasks.stream().filter(it -> it.blocked != null && !it.isWoken() && !it.blocked.is("join")).toList();
        if (waiting.isEmpty()) return;
        end();
        for (Task task : waiting) await(task::isWoken, "task " + task.birth + ", once the threads have ended");
        if (faulted() != null) say("late " + faultWords(faulted()));
    }

    private void end() {
        isOver = true;
        for (Task task : tasks) {
            if (task.thread == null) continue;
            if (task.blocked != null && task.blocked.is("join")) task.thread.interrupt();
            LockSupport.unpark(task.thread);
        }
    }

    /** Runs the program as it comes, and returns its outcome. */
    private String outcome() throws InterruptedException {
        start();
        root.thread.join(PATIENCE / 1_000_000);
        Task faulted = faulted();
        return faulted != null ? faultWords(faulted) : root.isAlive() ? "stuck" : end(root);
    }

    private static String free(Scopes scopes, List<Code.Function> functions) throws InterruptedException {
        Map<String, Integer> counts = new TreeMap<>();
        for (int n = 0; n < FREE; n++) counts.merge(new Player(scopes, functions).outcome(), 1, Integer::sum);
        StringBuilder said = new StringBuilder();
        counts.forEach((outcome, count) -> said.append(count).append(' ').append(outcome).append('\n'));
        return said.toString();
    }

    private static String played(Scopes scopes, List<String> text, List<String> trace) throws InterruptedException {
        List<Code.Function> functions = Code.read(text);
        if (FREE > 0) return free(scopes, functions);
        Player player = new Player(scopes, functions);
        try {
            player.play(trace);
        } catch (RuntimeException e) {
            e.printStackTrace();
            player.say("broken " + e);
        }
        return player.printed.toString();
    }

    private static List<String> linesUpTo(BufferedReader in, String end) throws IOException {
        List<String> lines = new ArrayList<>();
        for (String line = in.readLine(); !line.equals(end); line = in.readLine()) lines.add(line);
        return lines;
    }

    private static void playAll() {
        try {
            Scopes scopes = (Scopes) Class.forName(System.getProperty("scopes", "JdkScopes")).getDeclaredConstructor().newInstance();
            BufferedReader in = new BufferedReader(new InputStreamReader(System.in));
            PrintStream out = new PrintStream(new BufferedOutputStream(new FileOutputStream(FileDescriptor.out), 100_000), false);
            for (String line = in.readLine(); line != null; line = in.readLine()) {
                List<String> text = linesUpTo(in, "%"), trace = linesUpTo(in, ".");
                out.print(line + "\n" + played(scopes, text, trace) + ".\n");
            }
            out.flush();
        } catch (ReflectiveOperationException | IOException | InterruptedException e) {
            throw new IllegalStateException(e);
        }
    }

    public static void main(String[] words) throws InterruptedException {
        Thread player = (IS_PLATFORM || FREE > 0 ? Thread.ofPlatform() : Thread.ofVirtual()).start(Player::playAll);
        player.join();
        System.exit(0);
    }
}
