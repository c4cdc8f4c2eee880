import java.io.BufferedOutputStream;
import java.io.FileInputStream;
import java.io.IOException;
import java.io.PrintStream;
import java.math.BigDecimal;
import java.nio.ByteBuffer;
import java.nio.charset.StandardCharsets;
import java.util.HexFormat;

/**
 * Prints each changed row of logs with its cells, through binary records.
 *
 * <p>A line is what happened, the table, the position after the event, and the images: a cell is its column, "=", a letter for its kind,
 * and its value; bytes are hexadecimal.
 */
public final class CuvragyenRows {
    private static String hex(String text) {
        return HexFormat.of().formatHex(text.getBytes(StandardCharsets.UTF_8));
    }

    private static String text(CuvragyenRecord.Column column, Object value) {
        if (value == null || value == CuvragyenRecord.ABSENT) {
            return value == null ? "N" : "A";
        }
        if (value instanceof Long number) {
            boolean isUnsigned = column.isUnsigned() || column.type() == 13 || column.type() == 16 || column.type() >= 247;
            return isUnsigned ? "u" + Long.toUnsignedString(number) : "i" + number;
        }
        if (value instanceof Float number) {
            return String.format("f%08x", Float.floatToRawIntBits(number));
        }
        if (value instanceof Double number) {
            return String.format("d%016x", Double.doubleToRawLongBits(number));
        }
        if (value instanceof BigDecimal number) {
            return "D" + number.toPlainString();
        }
        if (value instanceof String time) {
            return "T" + hex(time);
        }
        if (value instanceof CuvragyenRecord.Json json) {
            return (json.isUpdates() ? "U" : "J") + hex(json.text());
        }
        byte[] bytes = new byte[((ByteBuffer) value).remaining()];
        ((ByteBuffer) value).get(bytes);
        return "b" + HexFormat.of().formatHex(bytes);
    }

    private static void image(CuvragyenRecord.Table table, Object[] values, StringBuilder line) {
        if (values == null) {
            return;
        }
        line.append(" |");
        for (int at = 0; at < values.length; at++) {
            var column = table.columns().get(at);
            line.append(' ').append(hex(column.name())).append('=').append(text(column, values[at]));
        }
    }

    private static void print(CuvragyenRecord.Change change, PrintStream out) {
        String position = Integer.toUnsignedString(change.position);
        if (change.kind == CuvragyenRecord.Kind.STATEMENT) {
            String text = HexFormat.of().formatHex(change.statement);
            out.print("statement " + hex(change.database) + " " + position + " | " + text + "\n");
            return;
        }
        var table = change.table;
        String head = change.kind.name().toLowerCase() + " " + hex(table.database()) + "." + hex(table.name()) + " " + position;
        for (var row : change) {
            var line = new StringBuilder(head);
            image(table, row.before(), line);
            image(table, row.after(), line);
            out.print(line.append('\n'));
        }
    }

    public static void main(String[] paths) throws IOException {
        var out = new PrintStream(new BufferedOutputStream(System.out), false);
        byte[] piece = new byte[1 << 17];
        for (String path : paths) {
            try (var file = new FileInputStream(path); var log = new Cuvragyen("records=1")) {
                for (int length; (length = file.read(piece)) > 0; ) {
                    log.push(piece, length);
                    for (ByteBuffer bytes; (bytes = log.next()) != null; ) {
                        for (var change : new CuvragyenRecord(bytes).changes()) {
                            print(change, out);
                        }
                    }
                }
            } catch (Cuvragyen.Fault fault) {
                System.err.println(path + ": " + fault.getMessage());
            }
        }
        out.flush();
    }
}
