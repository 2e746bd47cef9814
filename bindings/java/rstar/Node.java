package rstar;

import java.nio.charset.StandardCharsets;

/**
 * An open node of a process of a tree, over the log in a file.
 *
 * <p>Lines and answers are those of {@code rstar node} (docs/LIBRARY.md). A node answers on the thread that opened it. It stands
 * over the C library by JNI, which Debian's JDK has without a preview flag: librstar_jni.so is on java.library.path.
 */
public final class Node implements AutoCloseable {
    static {
        System.loadLibrary("rstar_jni");
    }

    private final Thread owner = Thread.currentThread();
    private long place;

    /** What the process did as it opened: hand the messages in it on. */
    public final String opening;

    /**
     * Opens a process of a tree, whose TOML text this is, over the log in this file.
     *
     * @param isNew whether the log is to be made
     * @throws Refused if no node was opened
     */
    public Node(String tree, int process, String path, boolean isNew) throws Refused {
        place = open(bytes(tree), process, bytes(path), isNew ? 1 : 0);
        opening = text(answer(place));
    }

    /**
     * The answer to a line, without its end.
     *
     * @throws Refused if there is none; of the numbers 21, 23 and 24 the step was made or not, and the node is to be closed and
     *     opened again
     */
    public String line(String line) throws Refused {
        own();
        return text(lineBytes(place, bytes(line)));
    }

    /**
     * Forces what stands in the log, and releases node, file and lock. A second close does nothing.
     *
     * @throws Refused if not all was forced; all is released then, too
     */
    @Override
    public void close() throws Refused {
        if (place != 0) {
            own();
            long was = place;
            place = 0;
            release(was);
        }
    }

    private void own() throws Refused {
        if (place == 0) {
            throw new Refused(26, 0);
        }
        if (Thread.currentThread() != owner) {
            throw new IllegalStateException("a node answers on the thread that opened it");
        }
    }

    private static byte[] bytes(String text) {
        return text.getBytes(StandardCharsets.UTF_8);
    }

    private static String text(byte[] bytes) {
        return new String(bytes, StandardCharsets.UTF_8);
    }

    /** A report, and the exit status of the program that writes it. */
    public static final class Report {
        public final String text;
        public final int status;

        Report(byte[] bytes, int status) {
            this.text = Node.text(bytes);
            this.status = status;
        }
    }

    /** The report of an audit of the text that {@code rstar tree --logs} writes. */
    public static Report audit(String logs, boolean explain) throws Refused {
        int[] ending = new int[1];
        return new Report(auditBytes(bytes(logs), explain ? 1 : 0, ending), ending[0]);
    }

    /** What the logs of that text hold. */
    public static Report log(String logs) throws Refused {
        int[] ending = new int[1];
        return new Report(logBytes(bytes(logs), ending), ending[0]);
    }

    /** The text of the XID of these bytes. */
    public static String xidText(byte[] xid) throws Refused {
        return text(xidTextOf(xid));
    }

    /** The bytes of the XID of this text. */
    public static byte[] xidBytes(String text) throws Refused {
        return xidBytesOf(bytes(text));
    }

    /** The bytes of the XID of a case; the root's own has parent 0. */
    public static byte[] xidOfCase(int root, int parent, String name) throws Refused {
        return xidOfCaseBytes(root, parent, bytes(name));
    }

    /** The case that an XID of these bytes names; its root and its parent come in the array of two. */
    public static String xidCase(byte[] xid, int[] rootAndParent) throws Refused {
        return text(xidCaseOf(xid, rootAndParent));
    }

    /** The version of the interface. */
    public static native int version();

    private static native long open(byte[] tree, int process, byte[] path, int how) throws Refused;

    private static native byte[] lineBytes(long place, byte[] line) throws Refused;

    private static native byte[] answer(long place) throws Refused;

    private static native void release(long place) throws Refused;

    private static native byte[] auditBytes(byte[] logs, int explain, int[] ending) throws Refused;

    private static native byte[] logBytes(byte[] logs, int[] ending) throws Refused;

    private static native byte[] xidTextOf(byte[] xid) throws Refused;

    private static native byte[] xidBytesOf(byte[] text) throws Refused;

    private static native byte[] xidOfCaseBytes(int root, int parent, byte[] name) throws Refused;

    private static native byte[] xidCaseOf(byte[] xid, int[] rootAndParent) throws Refused;
}
