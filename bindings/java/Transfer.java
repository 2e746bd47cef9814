import java.io.IOException;
import java.sql.Connection;
import java.sql.DriverManager;
import java.sql.PreparedStatement;
import java.sql.ResultSet;
import java.sql.SQLException;
import java.util.ArrayList;
import java.util.List;
import rstar.Node;
import rstar.Refused;

/**
 * Two accounts in two SQLite files of this program, and a transfer between them that is made in both or in neither, with a
 * coordinator of the library linked in: java Transfer FOLDER
 *
 * <p>The root of the tree is a node of the library; each file is a leaf. A promise is a row that is committed before the leaf
 * votes YES, and outlives a crash; the outcome moves the money and takes the row away. A child makes a transfer and is killed in
 * the midst of it, after the decision; the parent opens all again.
 */
public final class Transfer {
    private static final String TREE = "[[process]]\nid = 1\nkind = \"coordinator\"\n"
            + "[[process]]\nid = 2\nkind = \"manager\"\nparent = 1\n[[process]]\nid = 3\nkind = \"manager\"\nparent = 1\n";

    /** An account in a SQLite file, as a manager of the tree. */
    static final class Leaf {
        private final int number;
        private final Connection file;
        private final String boot;
        private int tickets;
        private String name;
        private boolean dies;

        Leaf(int number, String path, int balance) throws SQLException {
            this.number = number;
            file = DriverManager.getConnection("jdbc:sqlite:" + path);
            run("PRAGMA synchronous = FULL");
            run("CREATE TABLE IF NOT EXISTS account (balance INTEGER CHECK (balance >= 0))");
            run("CREATE TABLE IF NOT EXISTS promised (name TEXT PRIMARY KEY, amount INTEGER)");
            run("CREATE TABLE IF NOT EXISTS boot (number INTEGER)");
            run("INSERT INTO account SELECT ? WHERE NOT EXISTS (SELECT 1 FROM account)", balance);
            run("INSERT INTO boot SELECT 1 + coalesce(max(number), 0) FROM boot");
            boot = run("SELECT max(number) FROM boot").get(0);
        }

        List<String> run(String statement, Object... values) throws SQLException {
            List<String> rows = new ArrayList<>();
            try (PreparedStatement made = file.prepareStatement(statement)) {
                for (int i = 0; i < values.length; i++) {
                    made.setObject(i + 1, values[i]);
                }
                if (made.execute()) {
                    try (ResultSet found = made.getResultSet()) {
                        while (found.next()) {
                            rows.add(found.getString(1));
                        }
                    }
                }
            }
            return rows;
        }

        int balance() throws SQLException {
            return Integer.parseInt(run("SELECT balance FROM account").get(0));
        }

        /** Promises to add an amount, if the account allows it. */
        void promise(int amount) throws SQLException {
            run("INSERT INTO promised SELECT ?, ? FROM account WHERE balance + ? >= 0", name, amount, amount);
        }

        /** The answer to a message. */
        String hear(String message, String of) throws SQLException, InterruptedException {
            if (message.equals("JOIN")) {
                String ticket = number + "." + boot + "." + ++tickets;
                name = of + "@" + ticket;
                return "JOINED " + of + " " + ticket;
            }
            if (message.equals("PREPARE")) {
                return (run("SELECT 1 FROM promised WHERE name = ?", of).isEmpty() ? "NO " : "YES ") + of;
            }
            boolean commits = message.equals("COMMIT");
            run("BEGIN IMMEDIATE");
            if (commits) {
                run("UPDATE account SET balance = balance + coalesce((SELECT amount FROM promised WHERE name = ?), 0)", of);
            }
            run("DELETE FROM promised WHERE name = ?", of);
            run("COMMIT");
            if (dies) {
                System.out.println("kill me");
                System.out.flush();
                Thread.sleep(60_000);
            }
            return "ACK " + of + (commits ? " commit" : " abort");
        }
    }

    private final Node root;
    private final Leaf[] leaves;
    private String begun;
    private String told;

    Transfer(String folder, boolean isNew) throws Exception {
        leaves = new Leaf[] {new Leaf(2, folder + "/2.sqlite", 100), new Leaf(3, folder + "/3.sqlite", 20)};
        root = new Node(TREE, 1, folder + "/1.log", isNew);
        carry(root.opening);
        for (Leaf leaf : leaves) {
            for (String name : leaf.run("SELECT name FROM promised")) {
                tell("0 " + leaf.number + "->1 INQUIRE " + name);
            }
        }
    }

    /** Gives the root a line, and what it sends to the leaves. */
    private void tell(String line) throws Exception {
        String answer = root.line(line);
        System.out.print("> " + line + "\n" + answer);
        carry(answer);
    }

    private void carry(String answer) throws Exception {
        for (String line : answer.split("\n")) {
            String[] words = line.split(" ");
            if (words[0].equals("begin")) {
                begun = words[1];
            } else if (words[0].equals("told")) {
                told = words[2];
            } else if (words.length > 3 && words[1].contains("->")) {
                int to = Integer.parseInt(words[1].split("->")[1]);
                tell("0 " + to + "->1 " + leaves[to - 2].hear(words[2], words[3]));
            }
        }
    }

    private void transfer(int amount) throws Exception {
        tell("begin pa");
        tell("join " + begun + " 2");
        tell("join " + begun + " 3");
        leaves[0].promise(-amount);
        leaves[1].promise(amount);
        tell("commit " + begun);
    }

    private void expect(int two, int three, String when) throws SQLException {
        int left = leaves[0].balance();
        int right = leaves[1].balance();
        System.out.println(when + ": " + left + " and " + right);
        if (left != two || right != three) {
            throw new AssertionError("the accounts are wrong");
        }
    }

    private static void dies(String folder) throws Exception {
        Transfer bank = new Transfer(folder, true);
        bank.transfer(30);
        bank.expect(70, 50, "after a transfer");
        bank.leaves[0].dies = true;
        bank.transfer(25); // it is decided, and one leaf has obeyed, when the program dies
    }

    private static void refused(int number, String tree, int process, String path, boolean isNew) {
        try {
            new Node(tree, process, path, isNew).close();
        } catch (Refused why) {
            if (why.number == number) {
                return;
            }
            throw new AssertionError(number + " and not " + why.number, why);
        }
        throw new AssertionError("not refused by " + number);
    }

    /** What the class refuses, and names and audits. */
    private static void others(String folder) throws Exception {
        refused(6, TREE, 1, folder + "/none.log", false);
        refused(7, TREE, 1, folder + "/1.log", true);
        refused(10, TREE, 2, folder + "/1.log", false);
        refused(1, "[[", 1, folder + "/none.log", true);
        byte[] xid = Node.xidOfCase(1, 1, "a1.1@2.1.1");
        int[] above = new int[2];
        String logs = TREE + "---\nlog 1\nlog 2\nlog 3\n";
        if (Node.version() != 1 || !Node.xidCase(xid, above).equals("a1.1@2.1.1") || above[0] != 1 || above[1] != 1
                || !java.util.Arrays.equals(Node.xidBytes(Node.xidText(xid)), xid)
                || !Node.audit(logs, true).text.equals("mismatches 0\n") || Node.log(logs).status != 0
                || Node.audit("x", false).status != 1) {
            throw new AssertionError("names or audits are wrong");
        }
    }

    private static void kill(String folder) throws IOException, InterruptedException {
        Process child = new ProcessBuilder(ProcessHandle.current().info().command().orElse("java"),
                "-Djava.library.path=" + System.getProperty("java.library.path"), "-cp", System.getProperty("java.class.path"),
                "Transfer", folder, "dies").redirectError(ProcessBuilder.Redirect.INHERIT).start();
        try (var lines = child.inputReader()) {
            for (String line = lines.readLine(); line != null; line = lines.readLine()) {
                System.out.println(line);
                if (line.equals("kill me")) {
                    child.toHandle().destroyForcibly(); // SIGKILL
                    break;
                }
            }
        }
        if (child.waitFor() != 137) {
            throw new AssertionError("the child was not killed: " + child.exitValue());
        }
        System.out.println("killed");
    }

    public static void main(String[] words) throws Exception {
        if (words.length == 2) {
            dies(words[0]);
            System.exit(1);
        }
        kill(words[0]);
        Transfer bank = new Transfer(words[0], false);
        bank.expect(45, 75, "after the crash and the recovery");
        bank.transfer(500); // more than there is: leaf 2 votes NO
        bank.expect(45, 75, "after a transfer that cannot be");
        if (!bank.told.equals("aborted")) {
            throw new AssertionError(bank.told);
        }
        bank.root.close();
        others(words[0]);
    }
}
