// JDBC: nothing to say, as long as autocommit stays on. It names what it has sent five times, and asks for binary then.
import java.sql.*;
import java.util.*;
import org.postgresql.PGConnection;

public class with_jdbc {
    interface Work { Object done() throws SQLException; }

    static String port, user, table;
    static Connection own;

    static Connection connected(String user, String password) throws SQLException {
        return DriverManager.getConnection("jdbc:postgresql://127.0.0.1:" + port + "/x", user, password);
    }

    static void said(String step, Object... fields) {
        StringBuilder line = new StringBuilder(step);
        for (Object field : fields) line.append("\t").append(field);
        System.out.println(line);
    }

    static String code(Work work) {
        try { return "nothing raised, " + work.done(); }
        catch (SQLException why) { return why.getSQLState(); }
    }

    static PreparedStatement prepared(Connection on, String statement, Object... values) throws SQLException {
        PreparedStatement made = on.prepareStatement(statement);
        for (int n = 0; n < values.length; n++) made.setObject(n + 1, values[n]);
        return made;
    }

    static String rows(ResultSet set) throws SQLException {
        StringJoiner all = new StringJoiner("\t");
        int width = set.getMetaData().getColumnCount();
        while (set.next()) for (int n = 1; n <= width; n++) all.add(Objects.toString(set.getObject(n), "None"));
        return all.toString();
    }

    static String rows(Connection on, String statement, Object... values) throws SQLException {
        try (PreparedStatement made = prepared(on, statement, values)) { return rows(made.executeQuery()); }
    }

    static int change(String statement, Object... values) throws SQLException {
        try (PreparedStatement made = prepared(own, statement, values)) { return made.executeUpdate(); }
    }

    static String sum(ResultSet set) throws SQLException {
        long count = 0, sum = 0;
        while (set.next()) { count++; sum += set.getLong(1); }
        return count + "\t" + sum;
    }

    static String sum(Connection on, String statement, Object... values) throws SQLException {
        try (PreparedStatement made = prepared(on, statement, values)) { return sum(made.executeQuery()); }
    }

    static String batch(String insert, String middle) throws SQLException {
        String[] names = {"m0", middle, "m2"};
        try (Connection alone = connected(user, "pw-of-" + user)) {
            PreparedStatement made = alone.prepareStatement(insert);
            for (int n = 0; n < 3; n++) { made.setString(1, names[n]); made.setLong(2, n); made.addBatch(); }
            return Arrays.toString(made.executeBatch());
        } catch (BatchUpdateException why) {
            return why.getSQLState();
        } catch (RuntimeException why) {
            return why.getMessage();
        }
    }

    // Count and sum of what 300 statements give, each of which is sent six times: it keeps 256 of them.
    static String manyStatements() throws SQLException {
        long count = 0, sum = 0;
        for (int n = 100; n < 400; n++)
            for (int time = 0; time < 6; time++) {
                String[] told = sum(own, "SELECT x FROM few WHERE x = ? AND x <> " + n, 1 + time % 2).split("\t");
                count += Long.parseLong(told[0]);
                sum += Long.parseLong(told[1]);
            }
        return count + "\t" + sum;
    }

    public static void main(String[] words) throws Exception {
        port = words[0]; user = words[1]; table = "t_" + user;
        String odd = words[2], insert = "INSERT INTO " + table + " VALUES (?, ?)";
        String wage = "SELECT wage FROM " + table + " WHERE name = ?";
        own = connected(user, "pw-of-" + user);
        said("version", rows(own, "SHOW server_version"));
        said("create", own.createStatement().executeUpdate("CREATE TABLE " + table + " (name TEXT, wage INTEGER)"));
        said("insert", change(insert, "Bo", 7));
        said("insert odd", change(insert, odd, Long.MIN_VALUE));
        said("insert max", change(insert, "max", Long.MAX_VALUE));
        said("update", change("UPDATE " + table + " SET wage = ? WHERE name = ?", 8, "Bo"));
        said("several", batch(insert, "m1"));
        said("delete", change("DELETE FROM " + table + " WHERE name = ?", "m1"));
        ResultSetMetaData columns = own.createStatement().executeQuery("SELECT * FROM " + table).getMetaData();
        said("columns", columns.getColumnName(1), columns.getColumnTypeName(1), columns.getColumnName(2),
            columns.getColumnTypeName(2));
        said("rows", rows(own, "SELECT * FROM " + table));
        said("filter", rows(own, "SELECT name FROM " + table + " WHERE wage > ?", 0L));
        StringJoiner ten = new StringJoiner("\t");
        try (PreparedStatement made = own.prepareStatement(wage)) {
            for (int n = 0; n < 10; n++) { made.setString(1, "max"); ten.add(rows(made.executeQuery())); }
        }
        said("ten times", ten);
        Statement plain = own.createStatement();
        said("thousands", sum(plain.executeQuery("SELECT x FROM thousands")));
        plain.setMaxRows(7);
        said("seven at most", sum(plain.executeQuery("SELECT x FROM thousands WHERE x < 8")));
        own.setAutoCommit(false);
        Statement parts = own.createStatement();
        parts.setFetchSize(999);
        said("in parts", sum(parts.executeQuery("SELECT x FROM thousands")));
        own.commit();
        own.setAutoCommit(true);
        for (String line : System.getenv("REFUSED").split("\n")) {
            String[] asked = line.split("\t");
            said(asked[0], code(() -> own.createStatement().execute(asked[1])));
        }
        PreparedStatement none = own.prepareStatement(insert);
        none.setNull(1, Types.VARCHAR);
        none.setLong(2, 1);
        said("null", code(none::executeUpdate));
        said("line feed", code(() -> change(insert, "a\nb", 1)));
        said("no number", code(() -> change(insert, "x", "seven")));
        said("goes on", rows(own, wage, "Bo"));
        said("an error in a batch", batch(insert, "b\u0007"),
            rows(own, "SELECT name FROM " + table + " WHERE wage = 0"));
        change("DELETE FROM " + table + " WHERE wage = 0");
        change(insert, "m0", 0L);
        own.setAutoCommit(false);
        String refused = code(() -> change(insert, "in a block", 1));
        said("in a block", refused, code(() -> rows(own, "SELECT * FROM few")));
        own.rollback();
        said("a block of queries", rows(own, "SELECT * FROM few"));
        own.commit();
        own.setAutoCommit(true);
        said("is valid", own.isValid(5), own.getTransactionIsolation());
        said("grant", change("GRANT SELECT ON " + table + " TO reader"));
        try (Connection there = connected("reader", "pw-of-reader")) {
            said("two users", rows(own, wage, "Bo"), rows(there, wage, "Bo"),
                code(() -> there.createStatement().execute("DELETE FROM " + table)));
        }
        said("revoke", change("REVOKE SELECT ON " + table + " FROM reader"));
        said("moment", own.unwrap(PGConnection.class).getParameterStatus("sysr.moment"));
        said("export", rows(own, "EXPORT 1"));
        said("checkpoints", rows(own, "CHECKPOINTS"));
        said("many statements", manyStatements());
        said("wrong password", code(() -> connected(user, "wrong")));
        own.close();
    }
}
