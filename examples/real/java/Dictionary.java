import java.util.concurrent.ConcurrentHashMap;
import java.util.function.LongSupplier;

/**
 * {@code ConcurrentHashMap}, which shows nothing of what happens inside it. A lock for each key gives the order at that key: it is
 * held from before the library is called until the commit is logged. Operations of different keys are beside one another, in the
 * library too, and their keys share its bins.
 *
 * <pre>
 *     Dictionary correct SPECIFICATION [SEED [OPERATIONS]]        each operation holds its key's lock once
 *     Dictionary get_then_put SPECIFICATION [SEED [OPERATIONS]]   put_if_absent looks, and then puts
 *     Dictionary forgetful SPECIFICATION [SEED [OPERATIONS]]      remove looks for the old value, and then removes whatever is
 *                                                                 there
 * </pre>
 */
final class Dictionary {
    private static final int KEYS = 8;

    /** A key that has the hash of every other one. */
    private static final class Key implements Comparable<Key> {
        private final int number;

        Key(int number) {
            this.number = number;
        }

        @Override
        public int hashCode() {
            return number % 2;
        }

        @Override
        public boolean equals(Object other) {
            return other instanceof Key && ((Key) other).number == number;
        }

        @Override
        public int compareTo(Key other) {
            return Integer.compare(number, other.number);
        }
    }

    private final ConcurrentHashMap<Key, Long> library = new ConcurrentHashMap<>();
    private final Object[] locks = new Object[KEYS];
    private final boolean getThenPut;
    private final boolean forgetful;

    private Dictionary(String fault) {
        for (int k = 0; k < KEYS; k++) {
            locks[k] = new Object();
        }
        getThenPut = fault.equals("get_then_put");
        forgetful = fault.equals("forgetful");
    }

    private static long reply(Long value) {
        return value == null ? 0 : value + 1;
    }

    private long get(int k) {
        synchronized (locks[k]) {
            return reply(library.get(new Key(k)));
        }
    }

    private long put(VyrdLog.Caller caller, int k, long v) {
        synchronized (locks[k]) {
            long old = reply(library.put(new Key(k), v));
            caller.commit();
            return old;
        }
    }

    private long putIfAbsent(VyrdLog.Caller caller, int k, long v) {
        if (getThenPut) {
            long old = get(k);
            if (old == 0) {
                Thread.yield();
                put(caller, k, v);
            }
            return old;
        }
        synchronized (locks[k]) {
            long old = reply(library.putIfAbsent(new Key(k), v));
            if (old == 0) { // otherwise nothing changes, so nothing commits
                caller.commit();
            }
            return old;
        }
    }

    private long replace(VyrdLog.Caller caller, int k, long v) {
        synchronized (locks[k]) {
            long old = reply(library.replace(new Key(k), v));
            if (old != 0) {
                caller.commit();
            }
            return old;
        }
    }

    private long compareAndSet(VyrdLog.Caller caller, int k, long old, long v) {
        synchronized (locks[k]) {
            boolean done = library.replace(new Key(k), old, v);
            if (done) {
                caller.commit();
            }
            return done ? 1 : 0;
        }
    }

    private long remove(VyrdLog.Caller caller, int k) {
        long seen = 0;
        if (forgetful) {
            seen = get(k);
            Thread.yield();
        }
        synchronized (locks[k]) {
            long old = reply(library.remove(new Key(k)));
            if (old == 0) {
                return 0;
            }
            caller.commit();
            return forgetful ? seen : old;
        }
    }

    private static void called(VyrdLog.Caller caller, LongSupplier action, String method, long... arguments) {
        caller.call(method, arguments);
        caller.returns(action.getAsLong());
    }

    public static void main(String[] words) throws Exception {
        Play play = new Play(words, "correct", "get_then_put", "forgetful");
        Dictionary map = new Dictionary(play.fault);
        play.run((caller, random) -> {
            int k = random.nextInt(KEYS);
            long v = random.nextInt(8);
            long w = random.nextInt(8);
            switch (random.nextInt(6)) {
                case 0:
                    called(caller, () -> map.get(k), "get", k);
                    break;
                case 1:
                    called(caller, () -> map.put(caller, k, v), "put", k, v);
                    break;
                case 2:
                    called(caller, () -> map.putIfAbsent(caller, k, v), "put_if_absent", k, v);
                    break;
                case 3:
                    called(caller, () -> map.replace(caller, k, v), "replace", k, v);
                    break;
                case 4:
                    called(caller, () -> map.compareAndSet(caller, k, v, w), "compare_and_set", k, v, w);
                    break;
                default:
                    called(caller, () -> map.remove(caller, k), "remove", k);
            }
        });
    }
}
