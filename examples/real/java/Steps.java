import java.lang.invoke.VarHandle;
import java.util.function.LongSupplier;
import java.util.function.Supplier;

/**
 * What the queue calls for a compare-and-set on an element or on a link. The one that succeeds decides the thread's operation: it
 * and its {@code commit} are one step of the log. All other accesses are those of the library, at any time.
 */
final class Steps {
    private static final ThreadLocal<Steps> DOING = new ThreadLocal<>();

    private final VyrdLog.Caller caller;
    private boolean decided;

    private Steps(VyrdLog.Caller caller) {
        this.caller = caller;
    }

    /** A whole operation: its call, what it does, and its return. */
    static void called(VyrdLog.Caller caller, LongSupplier action, String method, long... arguments) {
        caller.step(lines -> {
            lines.note("in " + Thread.currentThread().getName());
            lines.call(method, arguments);
        });
        DOING.set(new Steps(caller));
        long reply = action.getAsLong();
        DOING.remove();
        caller.returns(reply);
    }

    static boolean compareAndSet(VarHandle handle, Object of, Object from, Object to) {
        Steps own = DOING.get();
        if (own == null || own.decided) {
            return handle.compareAndSet(of, from, to);
        }
        return own.decides(() -> handle.compareAndSet(of, from, to) ? Boolean.TRUE : null) != null;
    }

    /** A change that decides the thread's operation unless it gives null. */
    static <T> T found(Supplier<T> change) {
        return DOING.get().decides(change);
    }

    private <T> T decides(Supplier<T> change) {
        return caller.stepGiving(lines -> {
            T found = change.get();
            decided = found != null;
            if (decided) {
                lines.commit();
            }
            return found;
        });
    }
}
