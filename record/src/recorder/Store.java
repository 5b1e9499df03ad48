package recorder;

import java.io.IOException;
import java.nio.ByteBuffer;
import java.nio.channels.Channels;
import java.nio.channels.FileChannel;
import java.nio.charset.StandardCharsets;
import java.nio.file.DirectoryStream;
import java.nio.file.FileAlreadyExistsException;
import java.nio.file.Files;
import java.nio.file.Path;
import java.nio.file.StandardOpenOption;
import java.security.MessageDigest;
import java.security.NoSuchAlgorithmException;
import java.util.HashMap;
import java.util.HexFormat;
import java.util.Map;
import java.util.TreeMap;
import java.util.concurrent.LinkedBlockingQueue;
import java.util.concurrent.atomic.AtomicInteger;

/**
 * Writes recordings into the folder, by a thread of its own. Equal ones are written once, and counted. Those of other JVMs stay,
 * also of JVMs that run at the same time.
 */
final class Store {
    private static final LinkedBlockingQueue<Recording> QUEUE = new LinkedBlockingQueue<>(10_000);
    private static final AtomicInteger UNWRITTEN = new AtomicInteger();
    private static final long PATIENCE = 5_000_000_000L;     // nanoseconds, at the exit of the JVM
    private static final Map<String, String> NAMES = new HashMap<>();      // by what is written
    private static final Map<String, Integer> COUNTS = new TreeMap<>();    // by name, since they were last written
    private static Words words;

    private Store() {}

    static void begin(Words given) {
        words = given;
        Thread.ofPlatform().daemon().name("recorder-files").start(Store::work);
    }

    private static void work() {
        try {
            while (true) {
                write(QUEUE.take());
                if (UNWRITTEN.decrementAndGet() == 0) writeCounts();
            }
        } catch (InterruptedException e) {
            Agent.say("no more recordings are written");
        }
    }

    /** Queues a recording. One that finds the queue full is dropped. */
    static void later(Recording it) {
        UNWRITTEN.incrementAndGet();
        if (!QUEUE.offer(it)) UNWRITTEN.decrementAndGet();
    }

    /** Waits at the exit of the JVM until all is written, but not for ever. */
    static void finish() {
        for (long end = System.nanoTime() + PATIENCE; UNWRITTEN.get() > 0 && System.nanoTime() < end; ) Thread.onSpinWait();
        writeCounts();
    }

    static synchronized void write(Recording it) {
        try {
            String lines = new Lines(it, words.hasText).all();
            if (NAMES.isEmpty()) readNames();
            String name = NAMES.get(digest(bytes(lines)));
            if (name != null) COUNTS.merge(name, 1, Integer::sum);
            else if (NAMES.size() < words.most) writeNew(it, lines);
        } catch (IOException | RuntimeException e) {
            Agent.say("recording " + it.number + " (" + it.root.site + ") isn't written: " + e);
        }
    }

    /** Reads which recordings the folder has. */
    private static void readNames() throws IOException {
        Files.createDirectories(words.folder);
        try (DirectoryStream<Path> files = Files.newDirectoryStream(words.folder, "*.rec")) {
            for (Path file : files) {
                String name = file.getFileName().toString();
                NAMES.put(digest(Files.readAllBytes(file)), name.substring(0, name.length() - ".rec".length()));
            }
        }
        stopIfFull();
    }

    private static void writeNew(Recording it, String lines) throws IOException {
        String name = written(it.root.site.split("\\|")[0].replace(".java", "").replaceAll("[^A-Za-z0-9]", "_"), it.number, lines);
        NAMES.put(digest(bytes(lines)), name);
        COUNTS.put(name, 1);
        stopIfFull();
    }

    private static void stopIfFull() {
        if (NAMES.size() < words.most) return;
        Live.isDone = true;
        Agent.say(NAMES.size() + " different recordings are in " + words.folder + ", so no more are made (most=N)");
    }

    /** Writes a file with the first number that no file has, from this one on. Returns its name. */
    private static String written(String site, int number, String lines) throws IOException {
        for (; ; number++) {
            try {
                Files.writeString(words.folder.resolve(site + "-" + number + ".rec"), lines, StandardOpenOption.CREATE_NEW);
                return site + "-" + number;
            } catch (FileAlreadyExistsException e) {
                // another JVM made it
            }
        }
    }

    private static byte[] bytes(String text) {
        return text.getBytes(StandardCharsets.UTF_8);
    }

    private static String digest(byte[] content) {
        try {
            return HexFormat.of().formatHex(MessageDigest.getInstance("SHA-256").digest(content));
        } catch (NoSuchAlgorithmException e) {
            throw new IllegalStateException(e);
        }
    }

    /** Adds the counts to those in the folder. */
    private static synchronized void writeCounts() {
        if (COUNTS.isEmpty()) return;
        try (var file = FileChannel.open(words.folder.resolve("counts"), StandardOpenOption.CREATE, StandardOpenOption.READ, StandardOpenOption.WRITE)) {
            file.lock();    // until the file is closed
            String before = new String(Channels.newInputStream(file).readAllBytes(), StandardCharsets.UTF_8);
            Map<String, Integer> all = new TreeMap<>(COUNTS);
            before.lines().map(line -> line.split(" ")).forEach(it -> all.merge(it[1], Integer.parseInt(it[0]), Integer::sum));
            StringBuilder text = new StringBuilder();
            all.forEach((name, count) -> text.append(count).append(' ').append(name).append('\n'));
            file.truncate(0);
            file.write(ByteBuffer.wrap(bytes(text.toString())), 0);
            COUNTS.clear();
        } catch (IOException | RuntimeException e) {
            Agent.say("the counts aren't written: " + e);
        }
    }
}
