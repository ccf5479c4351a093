import java.util.ArrayList;
import java.util.List;
import java.util.Random;
import java.util.concurrent.ConcurrentHashMap;
import java.util.concurrent.CountDownLatch;

/**
 * A table from numbers to pairs over a ConcurrentHashMap, logged as a cache of which only the methods {@code write} and
 * {@code read} are used.
 *
 * <pre>
 * java Table correct   three threads write and read at random; prints the log of that run
 * java Table broken    a write changes the pair in its place, half by half; prints the log of that run
 * </pre>
 *
 * The table has no words in an order. Its entry h is told as chunk h: the state 2, for a value that counts, and the pair.
 */
final class Table {
    private static final int SIZE = 4;
    private static final int DIRTY = 2;

    /** What the broken write does between its two halves. */
    interface Between {
        void run() throws InterruptedException;
    }

    private final ConcurrentHashMap<Integer, long[]> pairs = new ConcurrentHashMap<>();
    private final VyrdLog log;
    private final Between between;

    Table(VyrdLog log, Between between) {
        this.log = log;
        this.between = between;
    }

    /** Puts a new pair into the map: who reads gets the old pair or the new one. The map's put is the commit. */
    void write(int caller, int h, int lo, int hi) {
        log.call(caller, "write " + h + " " + lo + " " + hi);
        log.step(caller, lines -> {
            pairs.put(h, new long[] {lo, hi});
            lines.open();
            lines.write(5 * h, DIRTY);
            lines.write(5 * h + 1, lo);
            lines.write(5 * h + 2, hi);
            lines.closeCommit();
        });
        log.returns(caller, 1);
    }

    /** The broken write: the pair in the map is changed, half by half. */
    void writeInPlace(int caller, int h, int lo, int hi) throws InterruptedException {
        log.call(caller, "write " + h + " " + lo + " " + hi);
        long[] pair = pairs.computeIfAbsent(h, key -> new long[2]);
        log.step(caller, lines -> {
            pair[0] = lo;
            lines.write(5 * h + 1, lo);
        });
        between.run();
        log.step(caller, lines -> {
            pair[1] = hi;
            lines.write(5 * h + 2, hi);
            lines.write(5 * h, DIRTY);
            lines.commit();
        });
        log.returns(caller, 1);
    }

    /** Replies hi * 2^32 + lo, and 0 for an entry that was never written. It takes no lock. */
    void read(int caller, int h) {
        log.call(caller, "read " + h);
        long[] pair = pairs.getOrDefault(h, new long[2]);
        log.returns(caller, (pair[1] << 32) + pair[0]);
    }

    private static void runCorrect() throws InterruptedException {
        int callers = 3;
        int operations = 300;
        VyrdLog log = new VyrdLog("cache", SIZE, callers);
        Table table = new Table(log, () -> {});
        List<Thread> threads = new ArrayList<>();
        for (int number = 0; number < callers; number++) {
            int caller = number;
            threads.add(new Thread(() -> {
                Random draw = new Random(caller);
                for (int n = 0; n < operations; n++) {
                    int h = draw.nextInt(SIZE);
                    if (draw.nextBoolean()) {
                        table.write(caller, h, draw.nextInt(1000), draw.nextInt(1000));
                    } else {
                        table.read(caller, h);
                    }
                }
            }));
        }
        for (Thread thread : threads) {
            thread.start();
        }
        for (Thread thread : threads) {
            thread.join();
        }
        log.print(System.out);
    }

    /** Caller 0 changes (1, 2) to (3, 4). Between the two halves caller 1 reads, and finds (3, 2). */
    private static void runBroken() throws InterruptedException {
        VyrdLog log = new VyrdLog("cache", SIZE, 2);
        CountDownLatch half = new CountDownLatch(1);
        CountDownLatch read = new CountDownLatch(1);
        Table table = new Table(log, () -> {
            half.countDown();
            read.await();
        });
        table.write(0, 0, 1, 2);
        Thread reader = new Thread(() -> {
            try {
                half.await();
                table.read(1, 0);
            } catch (InterruptedException stopped) {
                Thread.currentThread().interrupt();
            } finally {
                read.countDown();
            }
        });
        reader.start();
        table.writeInPlace(0, 0, 3, 4);
        reader.join();
        log.print(System.out);
    }

    public static void main(String[] words) throws InterruptedException {
        String word = words.length == 1 ? words[0] : "";
        switch (word) {
            case "correct" -> runCorrect();
            case "broken" -> runBroken();
            default -> {
                System.err.println("usage: java Table correct | broken");
                System.exit(2);
            }
        }
    }
}
