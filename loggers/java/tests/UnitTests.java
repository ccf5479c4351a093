import java.io.ByteArrayOutputStream;
import java.io.IOException;
import java.io.OutputStream;
import java.nio.charset.StandardCharsets;
import java.nio.file.Files;
import java.nio.file.Path;
import java.util.ArrayList;
import java.util.List;
import java.util.Map;

/** What stands in a log byte by byte, and what is refused. */
public final class UnitTests {
    private static int failed;

    private UnitTests() {}

    /** What may throw anything. */
    private interface Action {
        void run() throws Exception;
    }

    private static void same(Object got, Object wanted) {
        if (!got.equals(wanted)) {
            failed++;
            System.out.println("failed: " + got + "\nwanted: " + wanted);
        }
    }

    private static void refuses(String start, Action action) {
        String sentence = "nothing was refused";
        try {
            action.run();
        } catch (Exception e) {
            sentence = String.valueOf(e.getMessage());
        }
        same(sentence.substring(0, Math.min(start.length(), sentence.length())), start);
    }

    private static VyrdLog log(ByteArrayOutputStream to, int callers) {
        return VyrdLog.to(to, VyrdLog.Header.of(1, "tree", 2, callers), new VyrdLog.Options().watched(false));
    }

    private static String text(ByteArrayOutputStream written) {
        return written.toString(StandardCharsets.US_ASCII);
    }

    private static void eachLine() throws IOException {
        ByteArrayOutputStream written = new ByteArrayOutputStream();
        try (VyrdLog log = log(written, 3); VyrdLog.Caller first = log.caller(); VyrdLog.Caller second = log.caller()) {
            first.call("insert", 4294967295L, 0);
            first.step(lines -> {
                lines.open();
                lines.write(4, 1L << 62);
                lines.close();
                lines.closeCommit();
                lines.entry("commit");
            });
            first.commit();
            first.returns(Long.MAX_VALUE);
            first.step(lines -> lines.entry("return 18446744073709551615"));
            same(second.stepGiving(lines -> {
                lines.observed(1, "lookup", 7);
                lines.call("delete", 7);
                lines.helping(2, VyrdLog.Lines::commit);
                lines.commit();
                lines.returns(false);
                return 3;
            }), 3);
            log.finish();
        }
        same(text(written), "vyrd 1 tree 2 3\n0 call insert 4294967295 0\n0 open\n0 write 4 4611686018427387904\n"
                + "0 close\n0 close commit\n0 commit\n0 commit\n0 return 9223372036854775807\n0 return 18446744073709551615\n"
                + "1 call lookup 7\n1 return 1\n1 call delete 7\n2 commit\n1 commit\n1 return 0\nend\n");
    }

    private static void headers() {
        VyrdLog.Header header = VyrdLog.Header.withStart("multiset", 1, 1, Map.of(3, 0L, 1, 5L, 0, 2L));
        same(header.lines(), "vyrd 2 multiset 1 1\nstart 0 2\nstart 1 5\n");
        same(VyrdLog.Header.text("vyrd 3 own 0 100\nlog", 100).lines(), "vyrd 3 own 0 100\nlog\n");
        refuses("the version of a log is 1 or 2", () -> VyrdLog.Header.of(3, "tree", 1, 1));
        refuses("no subject of a log: queue", () -> VyrdLog.Header.of(1, "queue", 1, 1));
        refuses("the size of a log is from 1 to 1,024", () -> VyrdLog.Header.of(1, "tree", 0, 1));
        refuses("the size of a log is from 1 to 1,024", () -> VyrdLog.Header.of(1, "tree", 1025, 1));
        refuses("the callers of a log are from 1 to 64", () -> VyrdLog.Header.of(1, "tree", 1, 0));
        refuses("the callers of a log are from 1 to 64", () -> VyrdLog.Header.of(1, "tree", 1, 65));
        refuses("a log has a header", () -> VyrdLog.Header.text("", 1));
        refuses("the callers of a log are from 1 on", () -> VyrdLog.Header.text("vyrd 3 own 0 0", 0));
    }

    private static final String SPECIFICATION = "vyrd 3 own 2 200\nlist all\nmethod take x\n  answer 0\n"
            + "  allow (reply == 1)\n    drop first all\nlog\n";

    private static void ownHeaders() throws IOException {
        Path path = Files.createTempFile("vyrd_log", ".spec");
        Files.writeString(path, SPECIFICATION);
        Map<Integer, Long> start = Map.of(1, 7L, 0, 5L, 2, 0L);
        String cut = SPECIFICATION.substring(0, SPECIFICATION.length() - 1);
        for (VyrdLog.Header header : List.of(VyrdLog.Header.own(cut), VyrdLog.Header.ownFile(path))) {
            same(header.lines(), SPECIFICATION);
            same(header.andStart(start).lines(), SPECIFICATION + "start 0 5\nstart 1 7\n");
        }
        Files.delete(path);
        refuses(path.toString(), () -> VyrdLog.Header.ownFile(path));
        refuses("words at the start are of versions 2 and 3", () -> VyrdLog.Header.of(1, "tree", 1, 1).andStart(start));
        for (String first : List.of("", "vyrd 2 own 0 1", "vyrd 3 own 0", "vyrd 3 own 0 0", "vyrd 3 own 0 257",
                "vyrd 3 own 65537 1", "vyrd 3 own 00 1", "vyrd 3 own 0 1 ", "vyrd 3 own -1 1", "vyrd 3 own 4294967296 1",
                "\nvyrd 3 own 0 1")) {
            refuses("a specification begins with the line `vyrd 3 own WORDS CALLERS`, with up to 65,536 words and from 1 to 256 "
                    + "callers", () -> VyrdLog.Header.own(first + "\nlog\n"));
        }
        for (String rest : List.of("", "\nmethod x", "\nlog\n\n", "\n log", "\nlog\nend")) {
            refuses("a specification ends with the line `log`", () -> VyrdLog.Header.own("vyrd 3 own 65536 256" + rest));
        }
        for (String rest : List.of("\r\nlog\r\n", "\r\nlog\n", "\nlog\r\n")) {
            refuses("a line of the specification ends with a carriage return: lines end with a line feed alone",
                    () -> VyrdLog.Header.own("vyrd 3 own 65536 256" + rest));
        }
    }

    /** Lines of 200 bytes, notes, a call in the step that decides it, and one that commits nothing. */
    private static void ownLines() throws IOException {
        ByteArrayOutputStream written = new ByteArrayOutputStream();
        VyrdLog log = VyrdLog.to(written, VyrdLog.Header.own(SPECIFICATION), new VyrdLog.Options().watched(false));
        VyrdLog.Caller caller = log.caller();
        String most = "x".repeat(196) + "\u00e4";
        int place = caller.stepGiving(lines -> {
            lines.note("all at once");
            int line = new Throwable().getStackTrace()[0].getLineNumber() + 1;
            lines.here();
            lines.note(most);
            lines.call("take", 5);
            lines.commit();
            return line;
        });
        caller.returns(1);
        caller.call("x".repeat(41), 4294967295L, 4294967295L, 4294967295L);
        caller.returns(0);
        caller.step(lines -> {
            refuses("a line of a log has more than 200 bytes: # " + most + "x", () -> lines.note(most + "x"));
            refuses("a note has one line", () -> lines.note("two\nlines"));
        });
        log.finish();
        same(written.toString(StandardCharsets.UTF_8), SPECIFICATION + "# all at once\n# UnitTests.java:" + place + "\n# " + most
                + "\n0 call take 5\n0 commit\n0 return 1\n0 call " + "x".repeat(41) + " 4294967295 4294967295 4294967295\n"
                + "0 return 0\nend\n");
        log(new ByteArrayOutputStream(), 1).caller().step(lines -> refuses("notes are of version 3", lines::here));
    }

    private static void handles() {
        VyrdLog log = log(new ByteArrayOutputStream(), 2);
        VyrdLog.Caller first = log.caller();
        VyrdLog.Caller second = log.caller();
        refuses("no caller is free: all 2 of the header are handed out", log::caller);
        first.close();
        first.close();
        refuses("a step of a caller that is closed", first::commit);
        same(log.caller().number(), 0);
        same(second.number(), 1);
        refuses("no caller is free", log::caller);
    }

    /** Its number isn't another thread's, whose call would then stand inside its own. */
    private static void handlesThatAreClosedInsideACall() {
        VyrdLog log = log(new ByteArrayOutputStream(), 2);
        VyrdLog.Caller first = log.caller();
        VyrdLog.Caller second = log.caller();
        first.call("insert", 5);
        first.close();
        first.close();
        refuses("no caller is free: all 2 of the header are handed out (closed inside a call: 1)", log::caller);
        second.call("insert", 5);
        second.step(lines -> lines.entry("return 0"));
        second.close();
        VyrdLog.Caller third = log.caller();
        same(third.number(), 1);
        third.call("delete", 5);
        third.step(lines -> lines.helping(0, helped -> helped.returns(true)));
        third.step(lines -> lines.helping(2, helped -> helped.returns(true)));
        third.close();
        refuses("no caller is free: all 2 of the header are handed out (closed inside a call: 2)", log::caller);
    }

    private static void refusedSteps() throws IOException {
        ByteArrayOutputStream written = new ByteArrayOutputStream();
        VyrdLog log = log(written, 1);
        VyrdLog.Caller caller = log.caller();
        refuses("a step inside a step", () -> caller.step(lines -> {
            lines.commit();
            caller.commit();
        }));
        String longest = "x".repeat(64 - "0 call ".length());
        caller.call(longest);
        refuses("a line of a log has more than 64 bytes: 0 call " + longest + "x", () -> caller.call(longest + "x"));
        refuses("an argument is from 0 to 4294967295, and not -1", () -> caller.call("delete", 5, -1));
        refuses("an argument is from 0 to 4294967295, and not 4294967296", () -> caller.call("delete", 1L << 32));
        refuses("a reply is from 0 to 9223372036854775807, and not -1", () -> caller.returns(-1));
        caller.step(lines -> {
            refuses("a word is from 0 to 4294967295, and not -1", () -> lines.write(-1, 0));
            refuses("a value is from 0 to 9223372036854775807, and not -1", () -> lines.write(0, -1));
            refuses("the number of a caller is from 0 to 2147483647, and not -1", () -> lines.helping(-1, VyrdLog.Lines::commit));
        });
        log.finish();
        refuses("a step of a log that is finished", caller::commit);
        refuses("a log is finished twice", log::finish);
        same(text(written), "vyrd 1 tree 2 1\n0 commit\n0 call " + longest + "\nend\n");
    }

    private static void failures() {
        OutputStream full = new OutputStream() {
            @Override
            public void write(int b) throws IOException {
                throw new IOException("full");
            }
        };
        VyrdLog log = VyrdLog.to(full, VyrdLog.Header.of(1, "tree", 1, 1), new VyrdLog.Options());
        log.caller().commit();
        refuses("the log can't be written", log::finish);
        refuses("no/such/folder/log", () -> VyrdLog.create(VyrdLog.Header.of(1, "tree", 1, 1), Path.of("no/such/folder/log")));
    }

    /** A buffer that is too small for two lines, threads that meet, and pauses by a seed. */
    private static void threads() throws Exception {
        ByteArrayOutputStream written = new ByteArrayOutputStream();
        VyrdLog.Options options = new VyrdLog.Options().seed(3).buffer(8).watched(false);
        try (VyrdLog log = VyrdLog.to(written, VyrdLog.Header.of(1, "cache", 1, 8), options)) {
            List<Thread> threads = new ArrayList<>();
            for (int n = 0; n < 8; n++) {
                threads.add(new Thread(() -> read(log)));
            }
            threads.forEach(Thread::start);
            for (Thread thread : threads) {
                thread.join();
            }
        }
        String[] lines = text(written).split("\n");
        same(lines.length, 1601);
        for (int i = 1; i + 1 < lines.length; i += 2) {
            same(lines[i].replace("call read 0", "return 0"), lines[i + 1]);
        }
    }

    private static void read(VyrdLog log) {
        try (VyrdLog.Caller caller = log.caller()) {
            log.startTogether(8);
            for (int n = 0; n < 100; n++) {
                caller.step(lines -> lines.observed(0, "read", 0));
            }
        } catch (InterruptedException e) {
            Thread.currentThread().interrupt();
        }
    }

    public static void main(String[] words) throws Exception {
        eachLine();
        headers();
        ownHeaders();
        ownLines();
        handles();
        handlesThatAreClosedInsideACall();
        refusedSteps();
        failures();
        threads();
        System.exit(failed == 0 ? 0 : 1);
    }
}
