import java.util.ArrayList;
import java.util.HashMap;
import java.util.List;
import java.util.Map;
import java.util.Random;
import java.util.concurrent.CountDownLatch;
import java.util.concurrent.atomic.AtomicIntegerArray;
import java.util.function.IntConsumer;

/**
 * A map without a lock, whose methods reply what was there, and whose log is judged. It is logged as a tree that has a leaf for
 * each key. What was there is a lookup in the step of the change, which is judged at this one place.
 *
 * <p>ValueMap correct [SEED [OPERATIONS]]: a put swaps the values. ValueMap broken: it loads the old value and stores the new one
 * after that, and another put comes between, whose value nobody gets. ValueMap racing [SEED [OPERATIONS]]: the same mistake, by
 * threads that meet or don't.
 */
public final class ValueMap {
    private static final int KEYS = 4;
    private static final int CALLERS = 4;
    private static final int LEAF = 12; // words of a leaf, and where those that are used stand among them
    private static final int COUNT = 1;
    private static final int BOUND = 2;
    private static final int RIGHT = 3;
    private static final int KEY = 4;
    private static final int VALUE = 8;

    private final IntConsumer between; // what comes between load and store of a broken put; null: the correct one
    private final AtomicIntegerArray held = new AtomicIntegerArray(KEYS); // the value plus 1, or 0, as a lookup replies

    private ValueMap(IntConsumer between) {
        this.between = between;
    }

    /** Replies what was there. */
    int put(VyrdLog.Caller caller, int key, int value) {
        if (between != null) {
            int loaded = held.get(key);
            between.accept(caller.number());
            return caller.stepGiving(lines -> {
                held.set(key, value + 1);
                changed(lines, key, loaded, value);
                return loaded;
            });
        }
        return caller.stepGiving(lines -> {
            int old = held.getAndSet(key, value + 1);
            changed(lines, key, old, value);
            return old;
        });
    }

    /** Replies what was there. */
    int remove(VyrdLog.Caller caller, int key) {
        return caller.stepGiving(lines -> {
            int old = held.getAndSet(key, 0);
            lines.observed(old, "lookup", key);
            if (old != 0) {
                lines.call("delete", key);
                lines.write(LEAF * key + COUNT, 0);
                lines.commit();
                lines.returns(true);
            }
            return old;
        });
    }

    /** Replies what was there, which is 0 if the value is set. */
    int putIfAbsent(VyrdLog.Caller caller, int key, int value) {
        return compareAndPut(caller, key, 0, value);
    }

    /** Replies what was there, which is what it expected if the value is set. If it isn't, only a lookup is logged. */
    int compareAndPut(VyrdLog.Caller caller, int key, int expected, int value) {
        return caller.stepGiving(lines -> {
            int found = held.compareAndExchange(key, expected, value + 1);
            if (found == expected) {
                changed(lines, key, found, value);
            } else {
                lines.observed(found, "lookup", key);
            }
            return found;
        });
    }

    int get(VyrdLog.Caller caller, int key) {
        caller.call("lookup", key);
        int found = held.get(key);
        caller.returns(found);
        return found;
    }

    private static void changed(VyrdLog.Lines lines, int key, int old, int value) {
        lines.observed(old, "lookup", key);
        lines.call("insert", key, value);
        lines.open();
        lines.write(LEAF * key + VALUE, value);
        lines.write(LEAF * key + COUNT, 1);
        lines.closeCommit();
        lines.returns(old == 0 ? 1 : 2);
    }

    /** A leaf for each key, in a chain, with nothing in them. */
    private static Map<Integer, Long> leaves() {
        Map<Integer, Long> words = new HashMap<>();
        for (int key = 0; key < KEYS; key++) {
            words.put(LEAF * key + KEY, (long) key);
            words.put(LEAF * key + BOUND, key < KEYS - 1 ? key + 2L : 0L);
            words.put(LEAF * key + RIGHT, key < KEYS - 1 ? key + 1L : 0L);
        }
        words.put(LEAF * KEYS + 1, KEYS - 1L);
        return words;
    }

    private void play(VyrdLog log, long seed, int operations) {
        try (VyrdLog.Caller caller = log.caller()) {
            log.startTogether(CALLERS);
            Random draw = new Random(64 * seed + caller.number());
            int seen = 0;
            for (int n = 0; n < operations; n++) {
                int key = draw.nextInt(KEYS);
                int value = draw.nextInt(1000);
                switch (draw.nextInt(6)) {
                    case 0:
                        remove(caller, key);
                        break;
                    case 1:
                        seen = get(caller, key);
                        break;
                    case 2:
                        putIfAbsent(caller, key, value);
                        break;
                    case 3:
                        compareAndPut(caller, key, seen, value);
                        break;
                    default:
                        put(caller, key, value);
                }
            }
        } catch (InterruptedException e) {
            Thread.currentThread().interrupt();
        }
    }

    private static void together(VyrdLog log, IntConsumer between, long seed, int operations) throws InterruptedException {
        ValueMap map = new ValueMap(between);
        List<Thread> threads = new ArrayList<>();
        for (int n = 0; n < CALLERS; n++) {
            threads.add(new Thread(() -> map.play(log, seed, operations)));
        }
        threads.forEach(Thread::start);
        for (Thread thread : threads) {
            thread.join();
        }
    }

    /** Caller 0 has loaded what is at key 3. Before it stores its value, caller 1 does so, with its whole put. */
    private static void interrupted(VyrdLog log) throws InterruptedException {
        CountDownLatch loaded = new CountDownLatch(1);
        CountDownLatch stored = new CountDownLatch(1);
        ValueMap map = new ValueMap(caller -> {
            if (caller == 0) {
                loaded.countDown();
                await(stored);
            }
        });
        try (VyrdLog.Caller first = log.caller(); VyrdLog.Caller second = log.caller()) {
            Thread other = new Thread(() -> map.put(first, 3, 10));
            other.start();
            loaded.await();
            map.put(second, 3, 20);
            stored.countDown();
            other.join();
        }
    }

    private static void await(CountDownLatch latch) {
        try {
            latch.await();
        } catch (InterruptedException e) {
            Thread.currentThread().interrupt();
        }
    }

    public static void main(String[] words) throws Exception {
        String word = words.length > 0 ? words[0] : "";
        if (!word.equals("correct") && !word.equals("broken") && !word.equals("racing")) {
            System.err.println("usage: ValueMap correct | broken | racing [SEED [OPERATIONS]]");
            System.exit(64);
        }
        long seed = words.length > 1 ? Long.parseLong(words[1]) : 7;
        int operations = words.length > 2 ? Integer.parseInt(words[2]) : 500;
        VyrdLog.Header header = VyrdLog.Header.withStart("tree", KEYS, CALLERS, leaves());
        try (VyrdLog log = VyrdLog.to(System.out, header, new VyrdLog.Options())) {
            if (word.equals("broken")) {
                interrupted(log);
            } else {
                together(log, word.equals("racing") ? caller -> {} : null, seed, operations);
            }
            log.finish();
        }
    }
}
