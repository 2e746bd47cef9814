import java.sql.Connection;
import java.sql.PreparedStatement;
import java.sql.ResultSet;
import java.sql.SQLException;
import java.sql.Statement;
import java.util.ArrayList;
import java.util.List;
import java.util.Map;
import java.util.regex.Matcher;
import java.util.regex.Pattern;
import javax.sql.XAConnection;
import javax.sql.XADataSource;
import javax.transaction.xa.XAResource;

/** A manager that speaks JDBC, by its XADataSource. A work is a statement of the file of works, as leaves/sql.py has them. */
class XaJdbc implements XaManager {
    /**
     * What is particular of a manager: its class, how it takes its URL, what each session begins with, what its settings must
     * be, what gives a row for each session of an earlier leaf (a row `KILL N` is made), what forces a promise, and whether
     * recover lists one at once.
     */
    record Kind(String type, String setter, List<String> begin, Map<String, String> wanted, String fence, String force,
            boolean listsAll) { }

    static Kind kind(String word, Map<String, String> given, String name, long wait) {
        return switch (word) {
            case "derby" -> new Kind("org.apache.derby.jdbc.EmbeddedXADataSource", "setDatabaseName", List.of(), Map.of(), null,
                null, false);
            // without a checkpoint a promise may be half a second old before it is on the disk
            case "h2" -> new Kind("org.h2.jdbcx.JdbcDataSource", "setURL",
                List.of("SET LOCK_TIMEOUT " + wait, "SET WRITE_DELAY 0"), Map.of(), null, "CHECKPOINT SYNC", false);
            case "postgres" -> new Kind("org.postgresql.xa.PGXADataSource", "setURL",
                List.of("SET lock_timeout = " + wait, "SET synchronous_commit = on", "SET application_name = '" + name + "'"),
                Map.of("SHOW fsync", "on", "SHOW full_page_writes", "on",
                    "SELECT current_setting('max_prepared_transactions') <> '0'", "t"),
                "SELECT pg_terminate_backend(pid, 10000) FROM pg_stat_activity WHERE application_name = '" + name
                    + "' AND pid <> pg_backend_pid()", null, true);
            case "mariadb" -> new Kind("org.mariadb.jdbc.MariaDbDataSource", "setUrl",
                List.of("SET SESSION innodb_lock_wait_timeout = " + Math.max(1, wait / 1000),
                    "SET SESSION sql_mode = 'STRICT_ALL_TABLES'"),
                Map.of("SELECT @@innodb_flush_log_at_trx_commit", "1"),
                "SELECT concat('KILL ', id) FROM information_schema.processlist"
                    + " WHERE user = substring_index(current_user(), '@', 1) AND id <> connection_id()", null, true);
            case "jdbc" -> new Kind(given.get("class"), "setURL", List.of(), Map.of(), given.get("fence"), given.get("force"),
                given.containsKey("lists"));
            default -> throw new IllegalArgumentException("no such KIND: " + word);
        };
    }

    private final Kind kind;
    private final XADataSource source;
    private final Map<String, String> works;

    XaJdbc(String word, Kind kind, String url, String user, Map<String, String> works) throws Exception {
        this.kind = kind;
        this.works = works;
        Object made = Class.forName(kind.type).getDeclaredConstructor().newInstance();
        for (String setter : List.of(kind.setter, "setUrl", "setDatabaseName")) {
            try {
                made.getClass().getMethod(setter, String.class).invoke(made, url);
                break;
            } catch (NoSuchMethodException e) { /* it has another */ }
        }
        if (word.equals("derby")) made.getClass().getMethod("setCreateDatabase", String.class).invoke(made, "create");
        if (user != null) made.getClass().getMethod("setUser", String.class).invoke(made, user);
        String password = System.getenv("XA_PASSWORD"); // not in the command, which all may see
        if (password != null) made.getClass().getMethod("setPassword", String.class).invoke(made, password);
        source = (XADataSource) made;
        JdbcSession session = open();
        for (var wanted : kind.wanted.entrySet())
            if (!session.ask(wanted.getKey()).equals(List.of(wanted.getValue())))
                throw new XaLeaf.Gone(wanted.getKey() + " is not " + wanted.getValue() + ": a promise would not be kept", null);
        session.close();
    }

    public JdbcSession open() throws SQLException {
        JdbcSession session = new JdbcSession(source.getXAConnection(), works);
        for (String sql : kind.begin) session.make(sql);
        return session;
    }

    public boolean listsAll() { return kind.listsAll; }

    public void endOthers() throws SQLException {
        if (kind.fence == null) return; // a manager in process ends with its process
        JdbcSession session = open();
        for (List<String> rows; !(rows = session.ask(kind.fence)).isEmpty(); XaLeaf.pause(20)) {
            for (String row : rows) {
                try {
                    if (row != null && row.startsWith("KILL ")) session.make(row);
                } catch (SQLException e) { /* it has gone by itself */ }
            }
        }
        session.close();
    }

    @Override
    public void force() throws SQLException {
        if (kind.force == null) return;
        JdbcSession session = open();
        session.make(kind.force);
        session.close();
    }

    /** The table of the example, for trials: of a manager in process nobody else can make it. */
    void setup() throws SQLException {
        JdbcSession session = open();
        try {
            session.make("CREATE TABLE account(id varchar(64) PRIMARY KEY NOT NULL,"
                + " balance bigint NOT NULL CHECK (balance >= 0))");
            for (int n = 1; n <= 100; n++) session.make("INSERT INTO account VALUES ('n" + n + "', 1000)");
            if (kind.force != null) session.make(kind.force);
        } catch (SQLException e) { /* it is there */ }
        session.close();
    }

    static class JdbcSession implements XaManager.Session {
        private final XAConnection connection;
        private final Connection sql;
        private final XAResource xa;
        private final Map<String, String> works;

        JdbcSession(XAConnection connection, Map<String, String> works) throws SQLException {
            this.connection = connection;
            this.works = works;
            xa = connection.getXAResource();
            sql = connection.getConnection();
        }

        public XAResource xa() { return xa; }

        void make(String text) throws SQLException {
            try (Statement it = sql.createStatement()) { it.execute(text); }
        }

        List<String> ask(String text) throws SQLException {
            try (Statement it = sql.createStatement(); ResultSet rows = it.executeQuery(text)) {
                List<String> found = new ArrayList<>();
                while (rows.next()) found.add(rows.getString(1));
                return found;
            }
        }

        /** The statement of a work with its words bound; none if the file has none. */
        private PreparedStatement statement(String verb, String key, String value) throws SQLException {
            String[] parts = key.split("/", 2);
            String text = works.get(parts.length == 2 ? parts[0] : verb);
            if (text == null) return null;
            Matcher holes = Pattern.compile("\\{(key|value)}").matcher(text);
            List<String> words = new ArrayList<>();
            while (holes.find()) words.add(holes.group(1).equals("key") ? parts[parts.length - 1] : value);
            PreparedStatement it = sql.prepareStatement(holes.replaceAll("?"));
            for (int n = 0; n < words.size(); n++) it.setString(n + 1, words.get(n));
            return it;
        }

        public boolean perform(String[] words) throws SQLException {
            try (PreparedStatement it = statement(words[0], words[1], words.length > 2 ? words[2] : "")) {
                if (it == null) return false;
                if (!words[0].equals("get")) return !it.execute() && it.getUpdateCount() > 0;
                try (ResultSet rows = it.executeQuery()) {
                    while (rows.next()) { /* it is read */ }
                }
                return true;
            }
        }

        public Long see(String key) throws SQLException {
            try (PreparedStatement it = statement("get", key, "")) {
                it.setQueryTimeout(1);
                try (ResultSet rows = it.executeQuery()) { return rows.next() ? rows.getLong(1) : 0L; }
            } catch (SQLException e) { return null; } // a promised branch has it
        }

        public void close() {
            try { connection.close(); } catch (SQLException e) { /* it is gone */ }
        }
    }
}
