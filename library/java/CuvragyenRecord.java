import java.math.BigDecimal;
import java.nio.ByteBuffer;
import java.nio.ByteOrder;
import java.nio.charset.StandardCharsets;
import java.util.ArrayList;
import java.util.Iterator;
import java.util.List;
import java.util.NoSuchElementException;

/** A transaction as a binary record, as docs/library/RECORDS.md describes it: the bytes of {@link Cuvragyen#next} of a log with records=1. */
public final class CuvragyenRecord {
    /** What an event changed. */
    public enum Kind {
        INSERT,
        UPDATE,
        DELETE,
        STATEMENT
    }

    /** The value of a cell that the log hasn't in this image. */
    public static final Object ABSENT =
            new Object() {
                @Override
                public String toString() {
                    return "ABSENT";
                }
            };

    /** A column of a table. Its collation is 63 for bytes; 0: it isn't known, or has none. */
    public record Column(String name, int type, boolean isUnsigned, boolean isKey, boolean isNullable, int collation, List<byte[]> members) {}

    /** A table: its names and its columns. */
    public record Table(String database, String name, List<Column> columns) {}

    /** A JSON document as text, or its updates. */
    public record Json(String text, boolean isUpdates) {}

    /** A row: its image before the change, of an update or a delete, and the one after it, of an update or an insert; else null. */
    public record Row(Object[] before, Object[] after) {}

    private static final int TABLE = 5;

    /** The numbers of its changes, and of the rows and statements of these. */
    public final long changeCount, rowCount;
    /** Where it begins, the position after it, the time of its commit and its server: 32 bits without a sign. */
    public final int begin, position, time, serverId;
    /** Its GTID; null if it has none. */
    public final String gtid;

    private final ByteBuffer elements;

    /** Reads the head of a record; the record keeps the bytes. IllegalArgumentException: they aren't one. */
    public CuvragyenRecord(ByteBuffer bytes) {
        ByteBuffer rest = bytes.slice().order(ByteOrder.LITTLE_ENDIAN);
        int length = rest.remaining();
        if (length < 64 || rest.getInt() != 1) {
            throw new IllegalArgumentException("the bytes aren't a record: open the log with records=1");
        }
        rest.getInt();
        if (rest.getLong() != length) {
            throw new IllegalArgumentException("the bytes aren't a whole record");
        }
        changeCount = rest.getLong();
        rowCount = rest.getLong();
        begin = rest.getInt();
        position = rest.getInt();
        time = rest.getInt();
        serverId = rest.getInt();
        rest.getLong();
        String text = string(rest);
        gtid = text.isEmpty() ? null : text;
        elements = rest.slice().order(ByteOrder.LITTLE_ENDIAN);
    }

    private static ByteBuffer bytes(ByteBuffer rest, long length) {
        if (length < 0 || length > rest.remaining()) {
            throw new IllegalArgumentException("the bytes aren't a whole record");
        }
        ByteBuffer taken = rest.slice(rest.position(), (int) length).order(ByteOrder.LITTLE_ENDIAN);
        rest.position(rest.position() + (int) length);
        return taken;
    }

    private static byte[] array(ByteBuffer text) {
        byte[] copy = new byte[text.remaining()];
        text.get(copy);
        return copy;
    }

    private static String string(ByteBuffer rest) {
        return StandardCharsets.UTF_8.decode(bytes(rest, rest.getLong())).toString();
    }

    private static Table table(ByteBuffer rest) {
        String database = string(rest), name = string(rest);
        List<Column> columns = new ArrayList<>();
        for (long left = rest.getLong(); left > 0; left--) {
            int type = rest.get() & 0xff, bits = rest.get(), collation = rest.getShort() & 0xffff;
            long members = rest.getLong();
            String column = string(rest);
            List<byte[]> values = new ArrayList<>();
            for (; members > 0; members--) {
                values.add(array(bytes(rest, rest.getLong())));
            }
            columns.add(new Column(column, type, (bits & 1) != 0, (bits & 2) != 0, (bits & 4) != 0, collation, values));
        }
        return new Table(database, name, columns);
    }

    /**
     * The value of a cell: null for NULL, ABSENT, a Long (a number without a sign has its 64 bits), Float, Double, BigDecimal, a String for
     * dates and times, Json, and a ByteBuffer without a copy for bytes and text.
     */
    private static Object value(ByteBuffer rest) {
        int kind = rest.get();
        if (kind < 2) {
            return kind == 0 ? ABSENT : null;
        }
        long number = rest.getLong();
        switch (kind) {
            case 2:
            case 3:
                return number;
            case 4:
                return Float.intBitsToFloat((int) number);
            case 5:
                return Double.longBitsToDouble(number);
            case 8:
                return bytes(rest, number).asReadOnlyBuffer();
            default:
                String text = StandardCharsets.UTF_8.decode(bytes(rest, number)).toString();
                return kind == 9 ? new BigDecimal(text) : kind == 10 ? text : new Json(text, kind == 12);
        }
    }

    /** Rows of a table that one event changed, or a statement. */
    public static final class Change implements Iterable<Row> {
        public final Kind kind;
        /** Of rows. */
        public final Table table;
        public final int time, position;
        /** How many rows; 1 for a statement. */
        public final long rowCount;
        /** Of a statement: its database, and its text as bytes. */
        public final String database;
        public final byte[] statement;

        private final ByteBuffer cells;

        private Change(Kind kind, Table table, ByteBuffer rest) {
            this.kind = kind;
            this.table = table;
            time = rest.getInt();
            position = rest.getInt();
            boolean isStatement = kind == Kind.STATEMENT;
            rowCount = isStatement ? 1 : rest.getLong();
            database = isStatement ? string(rest) : null;
            statement = isStatement ? array(bytes(rest, rest.getLong())) : null;
            cells = rest;
        }

        /** The rows; none of a statement. */
        @Override
        public Iterator<Row> iterator() {
            ByteBuffer rest = cells.slice().order(ByteOrder.LITTLE_ENDIAN);
            return new Iterator<>() {
                private long left = table == null ? 0 : rowCount;

                private Object[] image() {
                    Object[] values = new Object[table.columns().size()];
                    for (int at = 0; at < values.length; at++) {
                        values[at] = value(rest);
                    }
                    return values;
                }

                @Override
                public boolean hasNext() {
                    return left > 0;
                }

                @Override
                public Row next() {
                    if (left-- <= 0) {
                        throw new NoSuchElementException();
                    }
                    Object[] before = kind == Kind.INSERT ? null : image();
                    return new Row(before, kind == Kind.DELETE ? null : image());
                }
            };
        }
    }

    /** Its changes, in the order of the log. */
    public List<Change> changes() {
        ByteBuffer rest = elements.slice().order(ByteOrder.LITTLE_ENDIAN);
        List<Table> tables = new ArrayList<>();
        List<Change> changes = new ArrayList<>();
        while (rest.hasRemaining()) {
            int kind = rest.getInt(), index = rest.getInt();
            ByteBuffer content = bytes(rest, rest.getLong());
            if (kind == TABLE) {
                tables.add(table(content));
            } else if (kind >= 1 && kind <= Kind.values().length) {
                Kind is = Kind.values()[kind - 1];
                changes.add(new Change(is, is == Kind.STATEMENT ? null : tables.get(index), content));
            }
        }
        return changes;
    }
}
