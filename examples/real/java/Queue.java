import java.util.ArrayDeque;
import java.util.concurrent.atomic.AtomicLong;
import java.util.concurrent.locks.ReentrantLock;

/**
 * {@code ConcurrentLinkedQueue}, whose log says where each element was linked and taken out.
 *
 * <pre>
 *     Queue correct SPECIFICATION [SEED [OPERATIONS]]    the library's queue as it is
 *     Queue aside SPECIFICATION [SEED [OPERATIONS]]      an enqueue that meets another one puts its element on a stack aside,
 *                                                        which a dequeue looks into first: a queue that is a stack where its
 *                                                        callers meet
 * </pre>
 *
 * <p>The class is that of the library's source, with its package left out and two of its compare-and-sets changed: {@code check}
 * makes it.
 */
final class Queue {
    private final ConcurrentLinkedQueue<Long> queue = new ConcurrentLinkedQueue<>();
    private final ReentrantLock busy = new ReentrantLock();
    private final ArrayDeque<Long> aside; // null: there is none

    private Queue(boolean aside) {
        this.aside = aside ? new ArrayDeque<>() : null;
    }

    private void enqueue(VyrdLog.Caller caller, long x) {
        Steps.called(caller, () -> {
            if (aside != null && !busy.tryLock()) {
                Steps.found(() -> {
                    aside.push(x); // in a step, as all uses of it
                    return x;
                });
                return 1;
            }
            queue.offer(x);
            if (aside != null) {
                busy.unlock();
            }
            return 1;
        }, "enqueue", x);
    }

    private void dequeue(VyrdLog.Caller caller) {
        Steps.called(caller, () -> {
            Long x = aside == null ? null : Steps.found(aside::poll);
            x = x == null ? queue.poll() : x;
            return x == null ? 0 : x + 1;
        }, "dequeue");
    }

    public static void main(String[] words) throws Exception {
        Play play = new Play(words, "correct", "aside");
        Queue queue = new Queue(play.fault.equals("aside"));
        AtomicLong next = new AtomicLong(1); // each element is another one
        play.run((caller, random) -> {
            if (random.nextInt(9) < 4) {
                queue.enqueue(caller, next.getAndIncrement());
            } else {
                queue.dequeue(caller);
            }
        });
    }
}
