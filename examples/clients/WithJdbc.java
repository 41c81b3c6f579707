// Follows one transaction by pgjdbc: java -cp JAR WithJdbc.java HOST PORT

import java.nio.ByteBuffer;
import java.sql.Connection;
import java.sql.DriverManager;
import java.sql.ResultSet;
import java.sql.Statement;
import java.util.Properties;
import org.postgresql.PGConnection;
import org.postgresql.PGProperty;
import org.postgresql.replication.PGReplicationStream;
import org.postgresql.replication.ReplicationSlotInfo;

class WithJdbc {
    public static void main(String[] words) throws Exception {
        try (Connection connection = connect(words[0], words[1])) {
            PGConnection session = connection.unwrap(PGConnection.class);
            identify(connection);
            ReplicationSlotInfo slot = session.getReplicationAPI().createReplicationSlot()
                .logical().withSlotName("s").withOutputPlugin("pgoutput").make();
            System.out.println("slot " + slot.getSlotName() + " " + slot.getConsistentPoint().asString()
                + " " + slot.getSnapshotName() + " " + slot.getOutputPlugin());
            PGReplicationStream stream = session.getReplicationAPI().replicationStream()
                .logical().withSlotName("s")
                .withSlotOption("proto_version", 1).withSlotOption("publication_names", "p")
                .withSlotOption("messages", true).start();
            System.out.println("started");
            follow(stream);
            stream.close();
            System.out.println("ended");
            session.getReplicationAPI().dropReplicationSlot("s");
            System.out.println("dropped");
        }
    }

    // Commands of replication go as simple queries. From a server that is said to be of 9.4 or later no SQL is asked at first.
    static Connection connect(String host, String port) throws Exception {
        Properties properties = new Properties();
        PGProperty.USER.set(properties, "u");
        PGProperty.REPLICATION.set(properties, "database");
        PGProperty.PREFER_QUERY_MODE.set(properties, "simple");
        PGProperty.ASSUME_MIN_SERVER_VERSION.set(properties, "9.4");
        String password = System.getenv("PGPASSWORD");
        if (password != null) {
            properties.setProperty("password", password);
        }
        return DriverManager.getConnection("jdbc:postgresql://" + host + ":" + port + "/app", properties);
    }

    static void identify(Connection connection) throws Exception {
        try (Statement statement = connection.createStatement();
             ResultSet row = statement.executeQuery("IDENTIFY_SYSTEM")) {
            row.next();
            System.out.println("system " + row.getString(1) + " " + row.getInt(2) + " " + row.getString(3)
                + " " + row.getString(4));
        }
    }

    // Takes all messages up to a Commit, and tells the server of them. The driver tells where a message begins, and not more.
    static void follow(PGReplicationStream stream) throws Exception {
        byte kind;
        do {
            ByteBuffer body = stream.read();
            kind = body.get(body.position());
            StringBuilder line = new StringBuilder("message " + stream.getLastReceiveLSN().asString() + " - - ");
            while (body.hasRemaining()) {
                line.append(String.format("%02x", body.get()));
            }
            System.out.println(line);
        } while (kind != 'C');
        stream.setFlushedLSN(stream.getLastReceiveLSN());
        stream.setAppliedLSN(stream.getLastReceiveLSN());
        stream.forceUpdateStatus();
    }
}
