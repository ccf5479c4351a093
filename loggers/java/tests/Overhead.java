import java.io.OutputStream;
import java.util.ArrayList;
import java.util.List;
import java.util.concurrent.atomic.AtomicLong;

/**
 * What a step costs: nanoseconds of each step and its line, with the log and without it.
 *
 * <p>Overhead THREADS STEPS
 */
public final class Overhead {
    private static final AtomicLong WORD = new AtomicLong(); // a store to it is a change of the program

    private Overhead() {}

    private static double nanosecondsOfAStep(int threads, int steps, Runnable body) throws InterruptedException {
        List<Thread> all = new ArrayList<>();
        for (int n = 0; n < threads; n++) {
            all.add(new Thread(body));
        }
        long begin = System.nanoTime();
        all.forEach(Thread::start);
        for (Thread thread : all) {
            thread.join();
        }
        return (System.nanoTime() - begin) / ((double) threads * steps);
    }

    private static double without(int threads, int steps) throws InterruptedException {
        return nanosecondsOfAStep(threads, steps, () -> {
            for (int m = 0; m < steps; m++) {
                WORD.set(m);
            }
        });
    }

    private static double with(int threads, int steps) throws Exception {
        VyrdLog.Header header = VyrdLog.Header.of(1, "multiset", 1, threads);
        try (VyrdLog log = VyrdLog.to(OutputStream.nullOutputStream(), header, new VyrdLog.Options())) {
            return nanosecondsOfAStep(threads, steps, () -> {
                try (VyrdLog.Caller caller = log.caller()) {
                    for (int m = 0; m < steps; m++) {
                        int value = m;
                        caller.step(lines -> {
                            WORD.set(value);
                            lines.write(1, value);
                        });
                    }
                }
            });
        }
    }

    public static void main(String[] words) throws Exception {
        if (words.length != 2) {
            System.err.println("usage: Overhead THREADS STEPS");
            System.exit(64);
        }
        int threads = Integer.parseInt(words[0]);
        int steps = Integer.parseInt(words[1]);
        without(threads, steps); // the first rounds are compiled
        with(threads, steps);
        System.out.printf("Java, %d threads: %.0f ns a step without the log, %.0f ns with it%n", threads,
                without(threads, steps), with(threads, steps));
    }
}
