import java.io.IOException;
import java.nio.ByteBuffer;
import java.nio.channels.FileChannel;
import java.nio.charset.StandardCharsets;
import java.nio.file.Files;
import java.nio.file.Path;
import java.nio.file.StandardCopyOption;
import java.nio.file.StandardOpenOption;
import java.util.ArrayList;
import java.util.List;
import java.util.Map;
import java.util.concurrent.ConcurrentHashMap;
import java.util.zip.CRC32;

/**
 * What a leaf over any manager remembers, in a file of its own: a line each, with its sum, forced as it is written. One leaf has
 * it at a time. The boot; the outcomes of the last week that were obeyed, or are about to be; operators' decisions, and what they
 * were told.
 */
class XaMemory {
    private static final long WEEK = 7 * 24 * 3600;
    private final Path path;
    /** Kept, since the lock goes with it. */
    private final FileChannel lock;
    private final FileChannel file;
    long boot;
    final Map<String, String> outcomes = new ConcurrentHashMap<>();
    final Map<String, String> decided = new ConcurrentHashMap<>();
    final Map<String, String> told = new ConcurrentHashMap<>();

    /** Reads the file, and writes it again with the next boot: by the clock too, so that an old copy gives no number twice. */
    XaMemory(Path path) throws IOException {
        this.path = path;
        lock = FileChannel.open(beside(".lock"), StandardOpenOption.CREATE, StandardOpenOption.WRITE);
        if (lock.tryLock() == null) throw new XaLeaf.Gone(path + " is in use", null);
        long now = System.currentTimeMillis() / 1000;
        List<String> kept = new ArrayList<>();
        if (Files.exists(path)) read(Files.readString(path, StandardCharsets.ISO_8859_1), now - WEEK, kept);
        boot = Math.max(boot + 1, now);
        try (FileChannel fresh = FileChannel.open(beside(".new"), StandardOpenOption.CREATE, StandardOpenOption.WRITE,
                StandardOpenOption.TRUNCATE_EXISTING)) {
            for (String line : kept) write(fresh, line);
            decided.forEach((c, how) -> write(fresh, "decided " + c + " " + how));
            told.forEach((c, how) -> write(fresh, "told " + c + " " + how));
            write(fresh, "opened " + boot);
            fresh.force(true);
        }
        Files.move(beside(".new"), path, StandardCopyOption.ATOMIC_MOVE);
        try (FileChannel folder = FileChannel.open(path.toAbsolutePath().getParent())) { folder.force(true); }
        file = FileChannel.open(path, StandardOpenOption.APPEND);
    }

    private Path beside(String ending) { return path.resolveSibling(path.getFileName() + ending); }

    private void read(String text, long since, List<String> kept) {
        String[] lines = text.split("\n", -1);
        for (int n = 0; n < lines.length - 1; n++) {
            boolean whole = lines[n].length() > 9 && lines[n].equals(sealed(lines[n].substring(9)));
            if (!whole && n == lines.length - 2) break; // the last one may be cut
            if (!whole) throw new XaLeaf.Gone(path + " is damaged at line " + (n + 1), null);
            String[] words = lines[n].split(" ");
            switch (words[1]) {
                case "opened" -> boot = Long.parseLong(words[2]);
                case "outcome" -> {
                    if (Long.parseLong(words[4]) < since) break;
                    outcomes.put(words[2], words[3]);
                    kept.add(lines[n].substring(9));
                }
                case "decided" -> decided.put(words[2], words[3]);
                case "told" -> told.put(words[2], words[3]);
                case "forgot" -> {
                    decided.remove(words[2]);
                    told.remove(words[2]);
                }
                default -> throw new XaLeaf.Gone(path + " has a line of nothing: " + (n + 1), null);
            }
        }
    }

    private static String sealed(String text) {
        CRC32 sum = new CRC32();
        sum.update(text.getBytes(StandardCharsets.ISO_8859_1));
        return String.format("%08x %s", sum.getValue(), text);
    }

    private static void write(FileChannel to, String text) {
        try {
            ByteBuffer bytes = ByteBuffer.wrap((sealed(text) + "\n").getBytes(StandardCharsets.ISO_8859_1));
            while (bytes.hasRemaining()) to.write(bytes);
        } catch (IOException e) { throw new XaLeaf.Gone("the leaf's file", e); }
    }

    private void note(String text) {
        synchronized (this) { write(file, text); }
        try { file.force(false); } catch (IOException e) { throw new XaLeaf.Gone("the leaf's file", e); }
    }

    void outcome(String c, String how) {
        if (outcomes.put(c, how) == null) note("outcome " + c + " " + how + " " + System.currentTimeMillis() / 1000);
    }

    void decide(String c, String how) {
        note("decided " + c + " " + how);
        decided.put(c, how);
    }

    void tell(String c, String how) {
        if (told.putIfAbsent(c, how) == null) note("told " + c + " " + how);
    }

    void forget(String c) {
        note("forgot " + c);
        decided.remove(c);
        told.remove(c);
    }

    List<String> untold() { return decided.keySet().stream().filter(c -> !told.containsKey(c)).sorted().toList(); }
}
