import java.io.IOException;
import java.nio.file.Files;
import java.nio.file.Path;
import java.util.ArrayList;
import java.util.Collections;
import java.util.List;
import java.util.concurrent.CountDownLatch;
import java.util.stream.Collectors;
import java.util.stream.LongStream;
import java.util.stream.Stream;

/**
 * Many runs in a test: what is accepted, what isn't, and what is said then. The variable VYRD names the program, and VYRD_EXPLAIN
 * what explains its answers.
 */
public final class RunsTests {
    private static final VyrdCheck.Body CORRECT = (seed, log) -> Multiset.together(log, 4, seed);

    private static int failed;
    private static Path folder;

    private RunsTests() {}

    private static void expect(boolean holds, String what) {
        if (!holds) {
            failed++;
            System.out.println("failed: " + what);
        }
    }

    private static VyrdCheck check() {
        return new VyrdCheck(VyrdLog.Header.of(1, "multiset", 1, 4)).folder(folder);
    }

    private static String sentenceOf(VyrdCheck check, VyrdCheck.Body body) throws Exception {
        try {
            check.check(body);
            return "nothing failed";
        } catch (AssertionError e) {
            return e.getMessage();
        }
    }

    private static void fails(String start, String said) {
        expect(said.startsWith(start), "wanted: " + start + "\ngot: " + said);
    }

    private static void correct() throws Exception {
        List<Long> seeds = new ArrayList<>();
        check().seed(5).check((seed, log) -> {
            seeds.add(seed);
            CORRECT.run(seed, log);
        });
        expect(seeds.equals(LongStream.range(5, 25).boxed().collect(Collectors.toList())), "the seeds: " + seeds);
        try (Stream<Path> files = Files.list(folder)) {
            expect(files.findAny().isEmpty(), "logs that are accepted are removed");
        }
    }

    private static void broken() throws Exception {
        VyrdCheck.Body body = (seed, log) -> {
            if (seed == 3) {
                Multiset.interrupted(log);
            } else {
                CORRECT.run(seed, log);
            }
        };
        String said = sentenceOf(check(), body);
        fails("run 3 of 20, with seed 3: violation at line 10: view differs at key 6\nThe log is kept: " + path(3) + "\n", said);
        String explained = "\n  line 8: caller 0, slot 0 value 6 -> 5; shown once -> not at all\n";
        expect(said.contains(explained), "what explains says: " + said);
        expect(Files.readString(path(3)).endsWith("\nend\n"), "the log that is kept");
    }

    private static void bodyThatThrows() throws Exception {
        fails("run 1 of 20, with seed 1: the body threw java.io.IOException: by the test; malformed at line 3: no end\n",
                sentenceOf(check(), (seed, log) -> {
                    log.caller().call("insert", 5);
                    throw new IOException("by the test");
                }));
        expect(Files.readString(path(1)).equals("vyrd 1 multiset 1 4\n0 call insert 5\n"), "the lines before that");
    }

    /** A thread whose exception nobody catches, and what becomes of the handler that was there before. */
    private static void threadThatThrows() throws Exception {
        List<String> handled = new ArrayList<>();
        Thread.UncaughtExceptionHandler before = (thread, thrown) -> handled.add(thread.getName() + ": " + thrown.getMessage());
        Thread.setDefaultUncaughtExceptionHandler(before);
        String said = sentenceOf(check(), (seed, log) -> startThatThrows(seed, log).join());
        fails("run 2 of 20, with seed 2: a thread of the body threw java.lang.AssertionError: by the test; malformed at line 3: "
                + "no end\nThe log is kept: " + path(2) + "\n", said);
        expect(Files.readString(path(2)).equals("vyrd 1 multiset 1 4\n0 call insert 5\n"), "the lines before that");
        fails("run 1 of 20, with seed 2: the body threw java.lang.Exception: by the body; a thread of the body threw "
                + "java.lang.AssertionError: by the test; ", sentenceOf(check().seed(2), (seed, log) -> {
                    startThatThrows(seed, log).join();
                    throw new Exception("by the body");
                }));
        fails("run 1 of 20, with seed 2: the body hasn't returned after 1.0 seconds; a thread of the body threw "
                + "java.lang.AssertionError: by the test; malformed at line 3: no end\n",
                sentenceOf(check().seed(2).seconds(1), (seed, log) -> {
                    startThatThrows(seed, log);
                    log.startTogether(2);
                }));
        expect(handled.equals(Collections.nCopies(3, "worker: by the test")), "handled: " + handled);
        expect(Thread.getDefaultUncaughtExceptionHandler() == before, "the handler is put back");
        Thread.setDefaultUncaughtExceptionHandler(null);
    }

    private static Thread startThatThrows(long seed, VyrdLog log) {
        Thread worker = new Thread(() -> {
            try (VyrdLog.Caller caller = log.caller()) {
                caller.call("insert", 5);
                if (seed == 2) {
                    throw new AssertionError("by the test");
                }
                caller.commit();
                caller.returns(false);
            }
        }, "worker");
        worker.start();
        return worker;
    }

    private static void runThatLogsNothing() throws Exception {
        fails("run 1 of 20, with seed 1: the run logged nothing; accepted: 0 entries, 0 commits, 0 observers\nThe log is kept: "
                + path(1) + "\n", sentenceOf(check(), (seed, log) -> log.caller().step(lines -> {})));
        expect(Files.readString(path(1)).equals("vyrd 1 multiset 1 4\nend\n"), "a step without a line writes nothing");
    }

    private static void bodyThatHangs() throws Exception {
        CountDownLatch never = new CountDownLatch(1);
        fails("run 1 of 20, with seed 1: the body hasn't returned after 2.0 seconds; malformed at line 3: no end\n",
                sentenceOf(check().seconds(2), (seed, log) -> {
                    log.caller().call("insert", 5);
                    never.await();
                }));
        expect(Files.readString(path(1)).equals("vyrd 1 multiset 1 4\n0 call insert 5\n"), "the lines before that");
    }

    private static void programs() throws Exception {
        fails("the program that judges the logs can't be run: /no/vyrd", sentenceOf(check().program("/no/vyrd"), CORRECT));
        fails("no program judges the logs: the variable VYRD or the option program is to name it",
                sentenceOf(check().program(null), CORRECT));
        String said = sentenceOf(check().program("false").explain("/no/explain"), CORRECT);
        expect(said.contains("false gave no verdict, ended with status 1, and said: \n"), said);
        expect(said.endsWith("\nNothing explains it: there is no /no/explain"), said);
    }

    private static Path path(int seed) {
        return folder.resolve(seed + ".log");
    }

    public static void main(String[] words) throws Exception {
        folder = Path.of(words[0]);
        correct();
        broken();
        bodyThatThrows();
        threadThatThrows();
        runThatLogsNothing();
        bodyThatHangs();
        programs();
        System.exit(failed == 0 ? 0 : 1);
    }
}
