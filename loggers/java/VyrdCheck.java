import java.io.File;
import java.io.IOException;
import java.nio.charset.StandardCharsets;
import java.nio.file.Files;
import java.nio.file.Path;
import java.util.HashSet;
import java.util.Set;
import java.util.concurrent.TimeUnit;

/**
 * Runs a body many times in a test and lets {@code vyrd check} judge each log. Copy this class with VyrdLog; it needs Java 11, and
 * no test library: what it throws is an AssertionError.
 *
 * <pre>{@code
 * @Test
 * void myStructureIsRight() throws Exception {
 *     new VyrdCheck(VyrdLog.Header.of(1, "multiset", 1, 4)).runs(20).check((seed, log) -> {
 *         ... // makes the structure, and lets threads use it; each thread has a caller of the log
 *     });
 * }
 * }</pre>
 */
public final class VyrdCheck {
    private final VyrdLog.Header header;
    private int runs = 20;
    private long first = 1;
    private double seconds = 60;
    private VyrdLog.Options options = new VyrdLog.Options();
    private Path folder;
    private String program = System.getenv("VYRD");
    private String explain = System.getenv("VYRD_EXPLAIN");

    /** Checks of logs that begin with this header. */
    public VyrdCheck(VyrdLog.Header header) {
        this.header = header;
    }

    /** What a run does. */
    public interface Body {
        /**
         * Makes the structure, and lets threads use it. It waits for the threads that it starts, and doesn't finish the log: that
         * is done when it has returned. What one of these threads throws and nobody catches counts as thrown by the body.
         */
        void run(long seed, VyrdLog log) throws Exception;
    }

    /** How many runs there are: 20 by default. */
    public VyrdCheck runs(int runs) {
        this.runs = runs;
        return this;
    }

    /** The first run's seed, by default 1. The next runs have the numbers after it. */
    public VyrdCheck seed(long first) {
        this.first = first;
        return this;
    }

    /** How long the body may take: 60 seconds by default. One that takes longer goes on in its thread, which is a daemon. */
    public VyrdCheck seconds(double seconds) {
        this.seconds = seconds;
        return this;
    }

    /** How the logs are written. Their seed is the run's. */
    public VyrdCheck log(VyrdLog.Options options) {
        this.options = options;
        return this;
    }

    /** The folder of the logs. By default it is a new one in the system's folder for temporary files. */
    public VyrdCheck folder(Path folder) {
        this.folder = folder;
        return this;
    }

    /** The program that judges; by default the variable VYRD names it. */
    public VyrdCheck program(String program) {
        this.program = program;
        return this;
    }

    /**
     * What says more of a log that isn't accepted; by default the variable VYRD_EXPLAIN names it, or else it is {@code
     * tools/explain} beside the program.
     */
    public VyrdCheck explain(String explain) {
        this.explain = explain;
        return this;
    }

    /**
     * Makes the runs. A log that is accepted is removed.
     *
     * <p>While a body runs, what any thread throws and nobody catches counts as thrown by the body. Such threads are found by the
     * default handler of uncaught exceptions, which still calls the one that was there before. So a thread with a handler of its
     * own isn't seen, and neither is what a Future keeps until somebody calls its {@code get}.
     *
     * @throws AssertionError at the first run whose log isn't accepted or has no entry, whose body throws, or whose body takes
     *     too long. The log is then kept, and judged as it is. It is thrown also where the program can't be run
     * @throws IOException where a log can't be written or removed
     */
    public void check(Body body) throws IOException, InterruptedException {
        String judge = found();
        Path kept = folder == null ? Files.createTempDirectory("vyrd_") : Files.createDirectories(folder);
        for (int n = 0; n < runs; n++) {
            Path path = kept.resolve(Long.toUnsignedString(first + n) + ".log");
            Run run = new Run(body, first + n, VyrdLog.create(header, path, options.seed(first + n)));
            String fault = run.play(seconds);
            String verdict = verdict(judge, path);
            if (fault.isEmpty() && verdict.startsWith("accepted: 0 entries")) {
                fault = "the run logged nothing; ";
            }
            if (!fault.isEmpty() || !verdict.startsWith("accepted: ")) {
                String place = "run " + (n + 1) + " of " + runs + ", with seed " + Long.toUnsignedString(first + n) + ": ";
                String log = "\nThe log is kept: " + path + "\n\n";
                throw new AssertionError(place + fault + verdict + log + explanation(judge, path), run.cause());
            }
            Files.delete(path);
        }
        if (folder == null) {
            Files.delete(kept);
        }
    }

    /** One run of the body, in a thread of its own. */
    private static final class Run {
        private final Body body;
        private final long seed;
        private final VyrdLog log;
        private volatile Throwable thrown; // by the body
        private volatile Throwable uncaught; // the first that a thread of it threw

        Run(Body body, long seed, VyrdLog log) {
            this.body = body;
            this.seed = seed;
            this.log = log;
        }

        /** Gives what went wrong, or nothing. */
        String play(double seconds) throws IOException, InterruptedException {
            Thread thread = new Thread(this::call, "vyrd check");
            thread.setDaemon(true);
            Threads.watch(this);
            try {
                thread.start();
                TimeUnit.NANOSECONDS.timedJoin(thread, (long) (seconds * 1e9));
            } finally {
                Threads.leave(this);
            }
            String ofThread = uncaught == null ? "" : "a thread of the body threw " + uncaught + "; ";
            if (thread.isAlive()) {
                log.flush();
                return "the body hasn't returned after " + seconds + " seconds; " + ofThread;
            }
            String fault = (thrown == null ? "" : "the body threw " + thrown + "; ") + ofThread;
            if (fault.isEmpty()) {
                log.finish();
            } else {
                log.close();
            }
            return fault;
        }

        Throwable cause() {
            return thrown == null ? uncaught : thrown;
        }

        private void call() {
            try {
                body.run(seed, log);
            } catch (Throwable e) { // whatever it is, it belongs to the thread that waits
                thrown = e;
            }
        }
    }

    /** Sees what threads throw while bodies run. Of several bodies at a time each may have started the thread. */
    private static final class Threads {
        private static final Set<Run> RUNS = new HashSet<>();
        private static Thread.UncaughtExceptionHandler before;

        private Threads() {}

        static synchronized void watch(Run run) {
            if (RUNS.isEmpty()) {
                before = Thread.getDefaultUncaughtExceptionHandler();
                Thread.setDefaultUncaughtExceptionHandler(Threads::take);
            }
            RUNS.add(run);
        }

        static synchronized void leave(Run run) {
            RUNS.remove(run);
            if (RUNS.isEmpty()) {
                Thread.setDefaultUncaughtExceptionHandler(before);
            }
        }

        private static void take(Thread thread, Throwable thrown) {
            Thread.UncaughtExceptionHandler next = noted(thrown);
            if (next != null) {
                next.uncaughtException(thread, thrown);
            } else { // as the virtual machine says it where there is no handler
                System.err.print("Exception in thread \"" + thread.getName() + "\" ");
                thrown.printStackTrace();
            }
        }

        private static synchronized Thread.UncaughtExceptionHandler noted(Throwable thrown) {
            RUNS.stream().filter(run -> run.uncaught == null).forEach(run -> run.uncaught = thrown);
            return before;
        }
    }

    private String found() {
        if (program == null || program.isEmpty()) {
            throw new AssertionError("no program judges the logs: the variable VYRD or the option program is to name it");
        }
        String folders = program.contains("/") ? "." : String.valueOf(System.getenv("PATH"));
        for (String folder : folders.split(File.pathSeparator)) {
            File file = Path.of(folder).resolve(program).toFile();
            if (file.isFile() && file.canExecute()) {
                return file.getPath();
            }
        }
        throw new AssertionError("the program that judges the logs can't be run: " + program);
    }

    private static String verdict(String judge, Path path) throws IOException, InterruptedException {
        Path errors = path.resolveSibling(path.getFileName() + ".errors");
        Process process =
                new ProcessBuilder(judge, "check").redirectInput(path.toFile()).redirectError(errors.toFile()).start();
        String said = output(process);
        int status = process.waitFor();
        String errorsSaid = Files.readString(errors, StandardCharsets.ISO_8859_1).strip();
        Files.delete(errors);
        String[] starts = {"accepted: ", "violation at line ", "malformed at line "};
        if (status < starts.length && said.startsWith(starts[status])) {
            return said;
        }
        return judge + " gave no verdict, ended with status " + status + ", and said: " + said + errorsSaid;
    }

    private String explanation(String judge, Path path) throws IOException, InterruptedException {
        Path beside = Path.of(judge).toRealPath().resolveSibling("tools").resolve("explain");
        Path tool = explain == null || explain.isEmpty() ? beside : Path.of(explain);
        if (!Files.isExecutable(tool)) {
            return "Nothing explains it: there is no " + tool;
        }
        ProcessBuilder builder = new ProcessBuilder(tool.toString(), path.toString()).redirectErrorStream(true);
        builder.environment().put("VYRD", judge);
        Process process = builder.start();
        process.getOutputStream().close();
        return output(process);
    }

    private static String output(Process process) throws IOException {
        return new String(process.getInputStream().readAllBytes(), StandardCharsets.UTF_8).strip();
    }
}
