import java.io.BufferedReader;
import java.io.IOException;
import java.io.InputStreamReader;
import java.nio.charset.StandardCharsets;
import java.nio.file.Files;
import java.nio.file.Path;
import java.util.*;
import java.util.concurrent.*;
import java.util.regex.Matcher;
import java.util.regex.Pattern;
import javax.transaction.xa.XAException;
import javax.transaction.xa.XAResource;
import javax.transaction.xa.Xid;

/**
 * A leaf of a tree over any {@link XAResource}: lines in, lines out, as `rstar node` has them (docs/LEAVES.md).
 *
 * <pre>javac -d CLASSES -cp '/usr/share/java/*' leaves/Xa*.java
 * java -cp 'CLASSES:/usr/share/java/*' XaLeaf KIND URL NAME ME PARENT FILE [--works FILE] [--ask SECONDS] [--idle SECONDS]
 *     [--wait SECONDS] [--setup] [--user USER] [--class CLASS] [--fence SQL] [--force SQL] [--lists]</pre>
 *
 * KIND is derby (URL: the database's folder), h2, postgres, mariadb (URL: jdbc:..), activemq (URL: tcp://..), or jdbc with
 * --class, a javax.sql.XADataSource. NAME is the tree's, ME this process, PARENT its parent. FILE is this leaf's memory
 * ({@link XaMemory}): it must not be lost. In MariaDB the user is this leaf's alone. The environment's XA_PASSWORD is USER's.
 *
 * Of jdbc: --fence is made until it gives no row, and ends sessions of an earlier leaf (a row `KILL N` is made, too); --force is
 * made after a promise and an outcome; --lists says that recover lists a promise at once. --setup makes the table account, for
 * trials. The lines are those of leaves/leaf.py, and `value KEY`: the number that others see. Status 4: start it again, it looks.
 */
public class XaLeaf {
    /** It is not known what became of a call: nothing is answered, the next start looks. */
    static class Gone extends RuntimeException {
        Gone(String why, Throwable cause) { super(why, cause); }
    }

    static final String NUMBER = "(?:0|[1-9]\\d{0,18})";
    static final String TXN = "[ac]" + NUMBER + "\\." + NUMBER, REST = "\\." + NUMBER + "\\." + NUMBER;
    static final Pattern CASE = Pattern.compile(TXN + "@(" + NUMBER + ")" + REST);
    static final Pattern PARENT_CASE = Pattern.compile("(" + TXN + ")(?:@" + NUMBER + REST + ")?");
    static final Pattern MESSAGE = Pattern.compile(NUMBER + " (" + NUMBER + ")->(" + NUMBER + ") (\\S+) (\\S+)(?: (.*))?");
    static final Pattern WORK = Pattern.compile("(" + NUMBER + ") (put [!-~]{1,64} [!-~]{1,256}|get [!-~]{1,64}|del [!-~]{1,64})");
    static final List<String> OK = List.of("ok"), HELP = List.of("N F->T MESSAGE", "doubt", "status", "heur CASE commit|rollback",
        "forget CASE", "value KEY", "help", "end", "ok");

    record Name(int format, byte[] txn, byte[] ticket) implements Xid {
        public int getFormatId() { return format; }
        public byte[] getGlobalTransactionId() { return txn; }
        public byte[] getBranchQualifier() { return ticket; }
        // managers compare names, and a record would compare arrays as objects
        @Override public boolean equals(Object o) {
            return o instanceof Xid x && x.getFormatId() == format && Arrays.equals(x.getGlobalTransactionId(), txn)
                && Arrays.equals(x.getBranchQualifier(), ticket);
        }
        @Override public int hashCode() { return Arrays.hashCode(txn) * 31 + Arrays.hashCode(ticket); }
    }

    /** A branch at work. Spoiled: it will vote NO. */
    static class Active {
        long done, seen = System.nanoTime();
        XaManager.Session session;
        boolean spoiled, wrote;
    }

    final XaManager manager;
    final XaMemory memory;
    final String tree, me, parent;
    final long ask, idle;
    final Map<String, Active> active = new ConcurrentHashMap<>();
    final Map<String, String> tickets = new ConcurrentHashMap<>();
    final Map<String, CompletableFuture<List<String>>> last = new HashMap<>();
    /** A promise keeps its session until it is ended: of MariaDB no other may end it. */
    final Map<String, XaManager.Session> held = new ConcurrentHashMap<>();
    final Deque<XaManager.Session> free = new ConcurrentLinkedDeque<>();
    final ExecutorService pool = Executors.newFixedThreadPool(64);
    final BlockingQueue<CompletableFuture<List<String>>> ends = new LinkedBlockingQueue<>();
    long given, sent, asked;
    boolean ending;

    XaLeaf(XaManager manager, XaMemory memory, String tree, String me, String parent, long ask, long idle) throws Exception {
        this.manager = manager;
        this.memory = memory;
        this.tree = tree;
        this.me = me;
        this.parent = parent;
        this.ask = ask;
        this.idle = idle;
        manager.endOthers();
        note("Opened", "" + memory.boot);
        for (var it : memory.decided.entrySet()) end(it.getKey(), it.getValue()); // it was noted, and perhaps not made
        question();
        put(OK);
    }

    synchronized void put(List<String> lines) { System.out.print(String.join("\n", lines) + "\n"); System.out.flush(); }
    synchronized void say(String text) { put(List.of(++sent + " " + me + "->" + parent + " " + text)); }
    void note(String kind, String of) { put(List.of("log " + me + " " + kind + " " + of + " forced")); }
    static boolean presumed(String c, String how) { return how.equals("commit") == (c.charAt(0) == 'c'); }
    static String ticketOf(String c) { return c.substring(c.indexOf('@') + 1); }
    Xid xid(String c) { return new Name(4003, (tree + ":" + c.substring(0, c.indexOf('@'))).getBytes(), ticketOf(c).getBytes()); }

    XaManager.Session take() throws Exception {
        XaManager.Session s = free.poll();
        return s != null ? s : manager.open();
    }

    /** What is prepared, of this tree and this leaf alone: the list is the whole manager's. */
    Set<String> recover(XaManager.Session s) throws XAException {
        Set<String> found = new TreeSet<>();
        Xid[] all = s.xa().recover(XAResource.TMSTARTRSCAN | XAResource.TMENDRSCAN);
        for (Xid x : all == null ? new Xid[0] : all) {
            String txn = new String(x.getGlobalTransactionId()), ticket = new String(x.getBranchQualifier());
            if (x.getFormatId() == 4003 && txn.startsWith(tree + ":") && ticket.startsWith(me + "."))
                found.add(txn.substring(tree.length() + 1) + "@" + ticket);
        }
        return found;
    }

    Set<String> prepared() throws Exception {
        XaManager.Session s = take();
        Set<String> found = recover(s);
        free.add(s);
        found.addAll(held.keySet());
        found.removeAll(active.keySet());
        return found;
    }

    List<String> doubts() throws Exception { return prepared().stream().filter(c -> !memory.decided.containsKey(c)).toList(); }

    void question() throws Exception {
        asked = System.nanoTime();
        Set<String> standing = prepared();
        for (String c : standing) {
            if (!memory.decided.containsKey(c)) say("INQUIRE " + c);
            else later(c, () -> { end(c, memory.decided.get(c)); return OK; }); // it failed before
        }
        for (String c : memory.untold()) say("INQUIRE " + c);
    }

    // a branch at work
    List<String> join(String of) {
        String ticket = tickets.computeIfAbsent(of, it -> me + "." + memory.boot + "." + ++given);
        Matcher m = PARENT_CASE.matcher(of);
        m.matches();
        active.computeIfAbsent(m.group(1) + "@" + ticket, it -> new Active());
        say("JOINED " + of + " " + ticket);
        return OK;
    }

    List<String> work(String c, long number, String[] words) throws Exception {
        Active a = active.get(c);
        if (a == null || a.spoiled || number != a.done + 1) return OK; // out of order, or again: as if it were lost
        a.done = number;
        a.seen = System.nanoTime();
        boolean done;
        try {
            if (a.session == null) {
                XaManager.Session s = take();
                s.xa().start(xid(c), XAResource.TMNOFLAGS);
                a.session = s;
            }
            done = a.session.perform(words);
            a.wrote |= !words[0].equals("get");
        } catch (Exception e) { done = false; }
        if (!done) spoil(c, a);
        return OK;
    }

    /** It was not asked to promise: it is rolled back, at the latest with its session. */
    void spoil(String c, Active a) {
        a.spoiled = true;
        XaManager.Session s = a.session;
        a.session = null;
        if (s == null) return;
        boolean ended = false;
        try { s.xa().end(xid(c), XAResource.TMFAIL); } catch (XAException e) { /* XA_RB: it has failed already */ }
        try {
            s.xa().rollback(xid(c));
            ended = true;
        } catch (XAException e) { ended = isRolledBack(e) || e.errorCode == XAException.XAER_NOTA; }
        if (ended) free.add(s);
        else s.close();
    }

    static boolean isRolledBack(XAException e) { return isWithin(e, XAException.XA_RBBASE, XAException.XA_RBEND); }
    static boolean isWithin(XAException e, int first, int last) { return e.errorCode >= first && e.errorCode <= last; }

    Active drop(String c) {
        tickets.values().remove(ticketOf(c));
        return active.remove(c);
    }

    List<String> prepare(String c, long count) throws Exception {
        Active a = active.get(c);
        if (a == null) {
            say((memory.decided.containsKey(c) || prepared().contains(c) ? "YES " : "NO ") + c);
            return OK;
        }
        String vote = a.done != count || a.spoiled ? "NO" : a.wrote ? promise(c, a) : "READ";
        drop(c);
        if (!vote.equals("YES")) spoil(c, a);
        else note("Prepared", c);
        say(vote + " " + c);
        return OK;
    }

    /** YES: the promise is on the disk. NO: the manager said that the branch is rolled back. All else is not known. */
    String promise(String c, Active a) throws Exception {
        XaManager.Session s = a.session;
        try {
            s.xa().end(xid(c), XAResource.TMSUCCESS);
            int how = s.xa().prepare(xid(c));
            a.session = null;
            if (how == XAResource.XA_RDONLY) { free.add(s); return "READ"; }
        } catch (XAException e) {
            if (isRolledBack(e)) return "NO";
            throw new Gone("prepare: " + e.errorCode, e);
        }
        manager.force();
        if (manager.listsAll()) {
            XaManager.Session other = take();
            boolean listed = recover(other).contains(c);
            free.add(other);
            if (!listed) throw new Gone("prepare: XA_OK, and it is not listed", null);
        }
        held.put(c, s);
        return "YES";
    }

    // an outcome
    /** True: it has ended so now. None: there is none. False: it is not known, or not now. */
    Boolean end(String c, String how) throws Exception {
        XaManager.Session mine = held.get(c), s = mine != null ? mine : take();
        try {
            // some end a branch that an earlier session promised only on a session that has looked
            if (mine == null && !recover(s).contains(c)) return null;
            if (how.equals("commit")) s.xa().commit(xid(c), false);
            else s.xa().rollback(xid(c));
        } catch (XAException e) {
            if (e.errorCode == XAException.XAER_NOTA) return prepared().contains(c) ? Boolean.FALSE : null;
            if (isRolledBack(e) && how.equals("abort")) return true;
            if (isWithin(e, XAException.XA_HEURMIX, XAException.XA_HEURHAZ)) return heuristic(c, e.errorCode, s);
            if (e.errorCode == XAException.XA_RETRY) return false;
            throw new Gone(how + ": " + e.errorCode, e);
        } finally {
            if (mine == null) free.add(s);
        }
        if (mine != null) free.add(held.remove(c));
        manager.force();
        return true;
    }

    /** The manager decided by itself. That is kept as an operator's decision is; a mix counts as a rollback. */
    Boolean heuristic(String c, int code, XaManager.Session s) throws XAException {
        String by = code == XAException.XA_HEURCOM ? "commit" : "abort";
        memory.decide(c, by);
        note(by.equals("commit") ? "HeurCommit" : "HeurRollback", c);
        s.xa().forget(xid(c));
        held.remove(c);
        return false;
    }

    List<String> outcome(String c, String how) throws Exception {
        String found = "";
        Active a = active.get(c);
        if (a != null) {
            if (how.equals("commit")) return OK; // nobody commits what has not promised
            spoil(c, drop(c));
        } else {
            if (!memory.decided.containsKey(c)) {
                String was = memory.outcomes.get(c);
                // noted before it is made: if it is gone at the next start, it was this leaf that ended it
                if (was == null && !presumed(c, how) && (held.containsKey(c) || prepared().contains(c))) memory.outcome(c, how);
                Boolean ended = end(c, how);
                if (ended == null) {
                    was = memory.outcomes.get(c);
                    if (was == null) found = " unreported " + ticketOf(c);
                    else if (!was.equals(how)) found = " mixed " + ticketOf(c);
                } else if (ended) note(how.equals("commit") ? "Committed" : "RolledBack", c);
                else if (!memory.decided.containsKey(c)) return OK;
            }
            String by = memory.decided.get(c);
            if (by != null) { // an operator, or the manager by itself, was first
                memory.tell(c, how);
                if (!memory.told.get(c).equals(how)) return OK;
                if (!by.equals(how)) found = " mixed " + ticketOf(c);
            }
        }
        if (!presumed(c, how)) say("ACK " + c + " " + how + found);
        return OK;
    }

    List<String> decide(String c, String how) throws Exception {
        if (!doubts().contains(c)) return List.of("refused 7");
        memory.decide(c, how);
        end(c, how);
        note(how.equals("commit") ? "HeurCommit" : "HeurRollback", c);
        return OK;
    }

    List<String> forget(String c) {
        if (!memory.decided.containsKey(c)) return List.of("refused 8");
        memory.forget(c);
        note("Forgot", c);
        return OK;
    }

    // lines
    interface Does { List<String> it() throws Exception; }

    /** After the lines of its case that came before it. */
    CompletableFuture<List<String>> later(String c, Does does) {
        CompletableFuture<List<String>> before = last.getOrDefault(c, CompletableFuture.completedFuture(OK));
        CompletableFuture<List<String>> done = before.thenApplyAsync(it -> {
            try { return does.it(); } catch (Throwable why) { ended(why); return OK; }
        }, pool);
        last.put(c, done);
        return done;
    }

    static CompletableFuture<List<String>> now(List<String> lines) { return CompletableFuture.completedFuture(lines); }

    CompletableFuture<List<String>> message(String from, String to, String word, String name, String rest) {
        boolean joins = word.equals("JOIN") && PARENT_CASE.matcher(name).matches() && rest == null;
        Matcher m = CASE.matcher(name), work = WORK.matcher(rest == null ? "" : rest);
        if (!joins && !m.matches()) return now(List.of("error"));
        Does does = null;
        if (word.equals("WORK") && work.matches())
            does = () -> work(name, Long.parseLong(work.group(1)), work.group(2).split(" "));
        else if (word.equals("PREPARE") && rest != null && rest.matches(NUMBER)) does = () -> prepare(name, Long.parseLong(rest));
        else if (List.of("COMMIT", "ABORT").contains(word) && rest == null) does = () -> outcome(name, word.toLowerCase());
        else if (!joins) return now(List.of("error"));
        if (!from.equals(parent) || !to.equals(me) || !joins && !m.group(1).equals(me)) return now(List.of("refused 9"));
        return joins ? now(join(name)) : later(name, does);
    }

    CompletableFuture<List<String>> line(String text) throws Exception {
        Matcher m = MESSAGE.matcher(text);
        if (m.matches()) return message(m.group(1), m.group(2), m.group(3), m.group(4), m.group(5));
        String[] words = text.split(" ", -1);
        List<String> lines = new ArrayList<>();
        if (text.equals("doubt")) {
            for (String c : doubts()) lines.add("doubt " + c);
            for (String c : memory.untold()) lines.add("decided " + c + " " + memory.decided.get(c));
        } else if (text.equals("status")) {
            lines.add("status boot " + memory.boot + " at-work " + active.size() + " in-doubt " + doubts().size() + " decided "
                + memory.untold().size());
        } else if (words[0].equals("value") && words.length == 2) {
            XaManager.Session s = take();
            Long seen = s.see(words[1]);
            free.add(s);
            lines.add("value " + (seen == null ? "held" : seen));
        } else if (text.equals("end")) ending = true;
        else if (text.equals("help")) return now(HELP);
        else if (words.length > 1 && CASE.matcher(words[1]).matches()) {
            if (text.equals("heur " + words[1] + " commit")) return later(words[1], () -> decide(words[1], "commit"));
            if (text.equals("heur " + words[1] + " rollback")) return later(words[1], () -> decide(words[1], "abort"));
            return text.equals("forget " + words[1]) ? later(words[1], () -> forget(words[1])) : now(List.of("error"));
        } else return now(List.of("error"));
        lines.add("ok");
        return now(lines);
    }

    /** Who is in doubt asks again. A branch of which nothing was heard for long is spoiled: it frees its locks, and will vote NO. */
    void tick() throws Exception {
        if (System.nanoTime() - asked > ask) question();
        last.values().removeIf(CompletableFuture::isDone);
        for (var it : active.entrySet())
            if (!it.getValue().spoiled && System.nanoTime() - it.getValue().seen > idle)
                later(it.getKey(), () -> { if (active.get(it.getKey()) == it.getValue()) spoil(it.getKey(), it.getValue()); return OK; });
    }

    static void pause(long millis) {
        try { Thread.sleep(millis); } catch (InterruptedException e) { Thread.currentThread().interrupt(); }
    }

    static void ended(Throwable why) {
        System.err.println("leaf: " + why + (why.getCause() == null ? "" : ": " + why.getCause()));
        Runtime.getRuntime().halt(4);
    }

    void serve() throws Exception {
        BlockingQueue<Optional<String>> lines = new LinkedBlockingQueue<>();
        Thread reader = new Thread(() -> {
            try (BufferedReader in = new BufferedReader(new InputStreamReader(System.in, StandardCharsets.US_ASCII))) {
                for (String line; (line = in.readLine()) != null; ) lines.add(Optional.of(line));
            } catch (IOException e) { /* it is at its end */ }
            lines.add(Optional.empty());
        });
        reader.setDaemon(true);
        reader.start();
        Thread printer = new Thread(() -> {
            try {
                for (List<String> end; !(end = ends.take().join()).isEmpty(); ) put(end);
            } catch (InterruptedException e) { ended(e); }
        });
        printer.start();
        while (!ending) {
            tick();
            Optional<String> line = lines.poll(Math.min(ask, 1_000_000_000L), TimeUnit.NANOSECONDS);
            if (line == null) continue;
            if (line.isEmpty()) break;
            if (!line.get().isEmpty() && line.get().charAt(0) != '#') ends.add(line(line.get()));
        }
        ends.add(now(List.of()));
        printer.join();
    }

    public static void main(String[] words) {
        try {
            List<String> plain = new ArrayList<>();
            Map<String, String> given = new HashMap<>(Map.of("ask", "5", "idle", "600", "wait", "0.5"));
            for (int n = 0; n < words.length; n++) {
                if (!words[n].startsWith("--")) plain.add(words[n]);
                else if (List.of("--setup", "--lists", "--help").contains(words[n])) given.put(words[n].substring(2), "");
                else given.put(words[n].substring(2), words[++n]);
            }
            boolean isRight = plain.size() == 6 && plain.get(2).matches("[A-Za-z][A-Za-z0-9]{0,22}")
                && plain.get(3).matches(NUMBER) && plain.get(4).matches(NUMBER);
            if (!isRight || given.containsKey("help")) {
                (given.containsKey("help") ? System.out : System.err).println("""
                    usage: XaLeaf KIND URL NAME ME PARENT FILE [--works FILE] [--ask SECONDS] [--idle SECONDS] [--wait SECONDS]
                        [--setup] [--user USER] [--class CLASS] [--fence SQL] [--force SQL] [--lists]
                    KIND is derby, h2, postgres, mariadb, activemq, or jdbc with --class; NAME is 1 to 23 letters and digits, a
                    letter first. The head of leaves/XaLeaf.java and docs/LEAVES.md say more.""");
                System.exit(given.containsKey("help") ? 0 : 1);
            }
            String name = "rstar." + plain.get(2) + "." + plain.get(3);
            Map<String, String> works = new HashMap<>();
            if (!plain.get(0).equals("activemq")) {
                String file = given.getOrDefault("works", "leaves/money.works");
                for (String line : Files.readAllLines(Path.of(file)))
                    if (!line.isBlank() && line.charAt(0) != '#') works.put(line.split("\\s+", 2)[0], line.split("\\s+", 2)[1]);
            }
            if (plain.get(0).equals("h2")) given.putIfAbsent("user", "sa");
            long wait = Math.round(1000 * Double.parseDouble(given.get("wait")));
            System.setProperty("derby.locks.waitTimeout", "" + Math.max(1, wait / 1000));
            System.setProperty("derby.locks.deadlockTimeout", "1");
            System.setProperty("derby.stream.error.file", "/dev/null");
            // 1. The boot, on the disk. 2. What an earlier leaf had under way ends. 3. The look.
            XaMemory memory = new XaMemory(Path.of(plain.get(5)));
            XaManager manager = plain.get(0).equals("activemq") ? new XaJms(plain.get(1), name)
                : new XaJdbc(plain.get(0), XaJdbc.kind(plain.get(0), given, name, wait), plain.get(1), given.get("user"), works);
            if (given.containsKey("setup")) ((XaJdbc) manager).setup();
            long ask = (long) (1e9 * Double.parseDouble(given.get("ask"))), idle = (long) (1e9 * Double.parseDouble(given.get("idle")));
            new XaLeaf(manager, memory, plain.get(2), plain.get(3), plain.get(4), ask, idle).serve();
            Runtime.getRuntime().halt(0);
        } catch (Throwable why) { ended(why); }
    }
}
