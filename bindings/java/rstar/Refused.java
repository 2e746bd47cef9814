package rstar;

/** Why there is no answer: its number in rstar.h, and the system's reason if there is one. */
public final class Refused extends Exception {
    private static final long serialVersionUID = 1;
    private static final String[] TOLD = {
        "", "the tree's text cannot be read", "its processes are no tree", "the tree has no such process",
        "the name has no bytes, or a zero byte", "the log is in use", "there is no log", "there is a log",
        "the log's file is damaged", "the system refused a call", "it is the log of another process", "the log is damaged",
        "its records are not those of a process of this kind", "it is a log of the first format", "it is not a file",
        "the file has a second name", "so no node is opened", "the tree's text is not UTF-8",
        "the handle is of an open node", "a place is null", "", "out of memory", "", "the log's file failed",
        "numbers are used up", "a line `end` was answered before", "the node is closed", "", "an earlier answer waits", "", "",
        "the format of an XID is negative", "the gtrid of an XID is not 1 to 64 bytes long",
        "the bqual of an XID is longer than 64 bytes", "the bytes of an XID are cut short", "there are bytes after an XID",
        "the text does not spell an XID", "it is no case", "the XID names no case of a tree",
    };

    public final int number;
    /** The system's errno, or 0. */
    public final int errno;

    Refused(int number, int errno) {
        super((number > 0 && number < TOLD.length ? TOLD[number] : "" + number) + (errno != 0 ? " (errno " + errno + ")" : ""));
        this.number = number;
        this.errno = errno;
    }
}
