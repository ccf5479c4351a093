import java.nio.file.Path;
import java.util.ArrayList;
import java.util.List;
import java.util.Random;

/** Threads that use a structure, each with a caller of the log and with numbers that a seed gives. */
final class Play {
    private static final int THREADS = 4;

    /** One operation, from its call to its return. */
    interface Operation {
        void run(VyrdLog.Caller caller, Random random);
    }

    /** The structure as it is, or the mistake of a broken one. */
    final String fault;
    private final Path specification;
    private final long seed;
    private final int operations;

    /** {@code NAME FAULT SPECIFICATION [SEED [OPERATIONS]]}, with a fault among these. */
    Play(String[] words, String... faults) {
        if (words.length < 2 || words.length > 4 || !List.of(faults).contains(words[0])) {
            System.err.println("usage: FAULT SPECIFICATION [SEED [OPERATIONS]], where FAULT is one of: " + String.join(" ", faults));
            System.exit(64);
        }
        fault = words[0];
        specification = Path.of(words[1]);
        seed = words.length > 2 ? Long.parseLong(words[2]) : 1;
        operations = words.length > 3 ? Integer.parseInt(words[3]) : 100;
    }

    /** Four threads do so many operations each, and the log on standard output ends with them. */
    void run(Operation operation) throws Exception {
        VyrdLog.Header header = VyrdLog.Header.ownFile(specification);
        try (VyrdLog log = VyrdLog.to(System.out, header, new VyrdLog.Options().seed(seed))) {
            List<Thread> threads = new ArrayList<>();
            for (int n = 0; n < THREADS; n++) {
                threads.add(new Thread(() -> use(log, operation)));
            }
            threads.forEach(Thread::start);
            for (Thread thread : threads) {
                thread.join();
            }
            log.finish();
        }
    }

    private void use(VyrdLog log, Operation operation) {
        try (VyrdLog.Caller caller = log.caller()) {
            Random random = new Random(seed * THREADS + caller.number());
            log.startTogether(THREADS);
            for (int n = 0; n < operations; n++) {
                operation.run(caller, random);
            }
        } catch (InterruptedException e) {
            Thread.currentThread().interrupt();
        }
    }
}
