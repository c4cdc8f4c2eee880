import java.io.FileInputStream;
import java.io.IOException;
import java.io.PrintStream;
import java.nio.ByteBuffer;
import java.nio.channels.Channels;
import java.nio.charset.StandardCharsets;

/** A binary log that arrives in pieces: the calls of cuvragyen.h through cuvragyen_java.c. */
public final class Cuvragyen implements AutoCloseable {
    static {
        System.loadLibrary("cuvragyen_java");
    }

    /** Why a log can't be opened or read further: a number of cuvragyen.h, and its name, such as Checksum. */
    public static final class Fault extends RuntimeException {
        public final int number;
        /** The line of a schema that can't be read, from 1 on; else 0. */
        public final long line;

        Fault(int number) {
            this(number, 0);
        }

        Fault(int number, long line) {
            super(line == 0 ? name(number) : name(number) + ", line " + line);
            this.number = number;
            this.line = line;
        }
    }

    /** How a log ended: by End, or a fault; the offset of the event that stopped it; the position after the last commit, or -1. */
    public record End(String verdict, long offset, long lastCommit, boolean isOpen, boolean isCut) {
        /** Whether the log has no fault, and ends after an event and outside a transaction. */
        public boolean isWhole() {
            return verdict.equals("End") && !isOpen && !isCut;
        }
    }

    private static final int OK = 0, TRANSACTION = 1;

    /** A log, or the number of the fault with a minus sign, less 256 for each line of a schema up to that which can't be read. */
    private static native long open(byte[] options, byte[] schema);

    private static native int push(long log, byte[] piece, int length);

    private static native int advance(long log);

    private static native ByteBuffer shown(long log);

    private static native void stop(long log, long[] end);

    private static native void close(long log);

    private static native String name(int number);

    private long log;

    /** Opens a log. The options are lines NAME=VALUE, as cuvragyen.h lists them. Fault: an option that can't be taken. */
    public Cuvragyen(String options) {
        this(options, new byte[0]);
    }

    /** The same, with a schema that completes table maps: the text of a file as binlog-changes --schema takes it. */
    public Cuvragyen(String options, byte[] schema) {
        long made = open(options.getBytes(StandardCharsets.UTF_8), schema);
        if (made < 0) {
            throw new Fault((int) (-made & 255), -made >> 8);
        }
        log = made;
    }

    private long log() {
        if (log == 0) {
            throw new IllegalStateException("the log is closed");
        }
        return log;
    }

    /** Keeps the next bytes of the log. Fault: the log has ended. */
    public void push(byte[] piece, int length) {
        if (length < 0 || length > piece.length) {
            throw new IndexOutOfBoundsException(length);
        }
        int pushed = push(log(), piece, length);
        if (pushed != OK) {
            throw new Fault(pushed);
        }
    }

    /** The lines of the next transaction, or its record for {@link CuvragyenRecord}, without a copy: valid until the next call. Null: more bytes are wanted. Fault: the log ends. */
    public ByteBuffer next() {
        int found = advance(log());
        if (found == OK) {
            return null;
        }
        ByteBuffer lines = found == TRANSACTION ? shown(log) : null;
        if (lines == null) {
            throw new Fault(found == TRANSACTION ? advance(log) : found);
        }
        return lines.asReadOnlyBuffer();
    }

    /** Ends the log, and returns how it ended: by End if it has no fault. */
    public End stop() {
        long[] end = new long[5];
        stop(log(), end);
        return new End(name((int) end[0]), end[1], end[2], end[3] != 0, end[4] != 0);
    }

    @Override
    public void close() {
        if (log != 0) {
            close(log);
        }
        log = 0;
    }

    /** Prints the changes of logs as JSON lines. */
    public static void main(String[] paths) throws IOException {
        var out = Channels.newChannel(new PrintStream(System.out, false));
        byte[] piece = new byte[1 << 17];
        for (String path : paths) {
            String name = path.substring(path.lastIndexOf('/') + 1);
            try (var file = new FileInputStream(path); var log = new Cuvragyen("file=" + name)) {
                for (int length; (length = file.read(piece)) > 0; ) {
                    log.push(piece, length);
                    for (ByteBuffer lines; (lines = log.next()) != null; ) {
                        out.write(lines);
                    }
                }
            } catch (Fault fault) {
                System.err.println(path + ": " + fault.getMessage());
            }
        }
    }
}
