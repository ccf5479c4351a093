import java.io.PrintStream;
import java.util.function.Consumer;

/**
 * Writes a VYRD log from any number of threads. Copy it into your program.
 *
 * <p>One lock orders all lines. A change of your structure and the lines that tell of it are made under this lock, as one
 * step, so that the log has the changes in the order in which they took place:
 *
 * <pre>log.step(caller, lines -> { array[h] = x; lines.write(5 * h + 1, x); });</pre>
 *
 * What only looks needs no step. The lines are kept in memory until {@code print}.
 */
final class VyrdLog {
    /** The lines of one step of one caller. They stand in the log one after the other. */
    final class Lines {
        private final int caller;

        private Lines(int caller) {
            this.caller = caller;
        }

        void write(int word, long value) {
            put("write " + word + " " + value);
        }

        void commit() {
            put("commit");
        }

        void open() {
            put("open");
        }

        void close() {
            put("close");
        }

        void closeCommit() {
            put("close commit");
        }

        private void put(String entry) {
            text.append(caller).append(' ').append(entry).append('\n');
        }
    }

    private final StringBuilder text = new StringBuilder();

    /** SUBJECT is multiset, cache, tree or buffers; SIZE is from 1 to 1,024 and CALLERS from 1 to 64. Callers count from 0. */
    VyrdLog(String subject, int size, int callers) {
        text.append("vyrd 1 " + subject + " " + size + " " + callers + "\n");
    }

    /** Does a change and adds its lines, with no line of another caller between them. */
    synchronized void step(int caller, Consumer<Lines> change) {
        change.accept(new Lines(caller));
    }

    /** Before the method does anything: {@code log.call(caller, "write 0 1 2")}. */
    void call(int caller, String method) {
        step(caller, lines -> lines.put("call " + method));
    }

    /** After the method has done all. A reply of 2^63 or above is given as its negative {@code long}. */
    void returns(int caller, long reply) {
        step(caller, lines -> lines.put("return " + Long.toUnsignedString(reply)));
    }

    /** Once, when all threads have ended. A line ends with a line feed alone, also on Windows: so there is no println. */
    synchronized void print(PrintStream out) {
        out.print(text);
        out.print("end\n");
        out.flush();
    }
}
