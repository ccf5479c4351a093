import java.nio.file.Path;
import java.util.ArrayList;
import java.util.List;
import java.util.Random;
import java.util.concurrent.CountDownLatch;
import java.util.concurrent.locks.ReentrantLock;
import java.util.function.IntConsumer;

/**
 * A multiset in four slots, each with a value and a valid bit, whose log is judged.
 *
 * <p>Multiset correct: an insert finds its slot and fills it under the lock. Multiset broken: it looks for the slot before it takes
 * the lock, and two find the same one.
 */
public final class Multiset {
    private static final int SLOTS = 4;

    private final IntConsumer between; // with it an insert looks without the lock, and calls it after that
    private final ReentrantLock lock = new ReentrantLock();
    private final int[] value = new int[SLOTS];
    private final boolean[] valid = new boolean[SLOTS];

    private Multiset(IntConsumer between) {
        this.between = between;
    }

    void insert(VyrdLog.Caller caller, int x) {
        caller.call("insert", x);
        int free = -1;
        if (between != null) {
            free = free();
            between.accept(caller.number());
        }
        lock.lock();
        try {
            if (between == null) {
                free = free();
            }
            fill(caller, free, x);
        } finally {
            lock.unlock();
        }
        caller.returns(free < SLOTS);
    }

    void delete(VyrdLog.Caller caller, int x) {
        caller.call("delete", x);
        boolean found;
        lock.lock();
        try {
            int i = find(x);
            found = i < SLOTS;
            caller.step(lines -> {
                if (i < SLOTS) {
                    valid[i] = false;
                    lines.write(2 * i, 0);
                }
                lines.commit();
            });
        } finally {
            lock.unlock();
        }
        caller.returns(found);
    }

    void lookup(VyrdLog.Caller caller, int x) {
        caller.call("lookup", x);
        lock.lock();
        boolean found = find(x) < SLOTS;
        lock.unlock();
        caller.returns(found);
    }

    /** Takes out any element, or replies -1. Which one is known only then, so all of the call's lines are there. */
    int take(VyrdLog.Caller caller) {
        lock.lock();
        try {
            int i = 0;
            while (i < SLOTS && !valid[i]) {
                i++;
            }
            int place = i;
            return place == SLOTS ? -1 : caller.stepGiving(lines -> {
                valid[place] = false;
                lines.observed(1, "lookup", value[place]);
                lines.call("delete", value[place]);
                lines.write(2 * place, 0);
                lines.commit();
                lines.returns(true);
                return value[place];
            });
        } finally {
            lock.unlock();
        }
    }

    private void fill(VyrdLog.Caller caller, int i, int x) {
        if (i == SLOTS) {
            caller.commit();
            return;
        }
        caller.step(lines -> {
            value[i] = x;
            lines.write(2 * i + 1, x);
        });
        caller.step(lines -> {
            valid[i] = true;
            lines.write(2 * i, 2);
            lines.commit();
        });
    }

    private int free() {
        int i = 0;
        while (i < SLOTS && valid[i]) {
            i++;
        }
        return i;
    }

    private int find(int x) {
        int i = 0;
        while (i < SLOTS && !(valid[i] && value[i] == x)) {
            i++;
        }
        return i;
    }

    private void play(VyrdLog log, int threads, long seed) {
        try (VyrdLog.Caller caller = log.caller()) {
            log.startTogether(threads);
            Random draw = new Random(64 * seed + caller.number());
            for (int n = 0; n < 500; n++) {
                int x = draw.nextInt(3);
                switch (draw.nextInt(6)) {
                    case 0:
                        delete(caller, x);
                        break;
                    case 1:
                        lookup(caller, x);
                        break;
                    case 2:
                        take(caller);
                        break;
                    default:
                        insert(caller, x);
                }
            }
        } catch (InterruptedException e) {
            Thread.currentThread().interrupt();
        }
    }

    /** The correct one: each of so many threads does operations that the seed gives. */
    static void together(VyrdLog log, int callers, long seed) throws InterruptedException {
        Multiset multiset = new Multiset(null);
        List<Thread> threads = new ArrayList<>();
        for (int n = 0; n < callers; n++) {
            threads.add(new Thread(() -> multiset.play(log, callers, seed)));
        }
        threads.forEach(Thread::start);
        for (Thread thread : threads) {
            thread.join();
        }
    }

    /** The broken one: caller 0 finds slot 0 free. Before it fills it, caller 1 does so, with its whole insert. */
    static void interrupted(VyrdLog log) throws InterruptedException {
        CountDownLatch looked = new CountDownLatch(1);
        CountDownLatch filled = new CountDownLatch(1);
        Multiset multiset = new Multiset(caller -> {
            if (caller == 0) {
                looked.countDown();
                await(filled);
            }
        });
        try (VyrdLog.Caller first = log.caller(); VyrdLog.Caller second = log.caller()) {
            Thread other = new Thread(() -> multiset.insert(first, 5));
            other.start();
            looked.await();
            multiset.insert(second, 6);
            filled.countDown();
            other.join();
        }
    }

    private static void await(CountDownLatch latch) {
        try {
            latch.await();
        } catch (InterruptedException e) {
            Thread.currentThread().interrupt();
        }
    }

    private static void run(boolean correct, VyrdLog.Header header) throws Exception {
        VyrdLog.Options options = correct ? new VyrdLog.Options().seed(7) : new VyrdLog.Options();
        try (VyrdLog log = VyrdLog.to(System.out, header, options)) {
            if (correct) {
                together(log, 4, 7);
            } else {
                interrupted(log);
            }
            log.finish();
        }
    }

    public static void main(String[] words) throws Exception {
        String word = words.length == 1 || words.length == 2 ? words[0] : "";
        if (!word.equals("correct") && !word.equals("broken")) {
            System.err.println("usage: Multiset correct | broken [SPECIFICATION]");
            System.exit(64);
        }
        run(word.equals("correct"),
                words.length == 2 ? VyrdLog.Header.ownFile(Path.of(words[1])) : VyrdLog.Header.of(1, "multiset", 1, 4));
    }
}
