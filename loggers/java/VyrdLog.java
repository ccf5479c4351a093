import java.io.Closeable;
import java.io.IOException;
import java.io.OutputStream;
import java.nio.charset.StandardCharsets;
import java.nio.file.Files;
import java.nio.file.Path;
import java.util.Arrays;
import java.util.BitSet;
import java.util.Map;
import java.util.OptionalLong;
import java.util.Set;
import java.util.TreeMap;
import java.util.concurrent.ConcurrentHashMap;
import java.util.concurrent.locks.LockSupport;
import java.util.concurrent.locks.ReentrantLock;
import java.util.function.Consumer;
import java.util.function.Function;
import java.util.regex.Matcher;
import java.util.regex.Pattern;

/**
 * Writes the log of a concurrent program, which {@code vyrd check} judges. Copy this class; it needs Java 11.
 *
 * <pre>{@code
 * try (VyrdLog log = VyrdLog.create(VyrdLog.Header.of(1, "multiset", 1, 2), Path.of("run.log"));
 *         VyrdLog.Caller caller = log.caller()) { // one for each thread
 *     caller.call("insert", 5);
 *     caller.step(lines -> {
 *         slot.value = 5; // what the program does, and the lines that tell of it, are one step
 *         lines.write(1, 5);
 *     });
 *     ...
 *     caller.returns(1);
 *     log.finish();
 * }
 * }</pre>
 *
 * <p>The steps of all callers take place one after the other, under one lock, so the lines stand in the order in which the
 * program did what they tell of.
 *
 * <p>What is kept in the buffer is written every 20 milliseconds too, and where the virtual machine shuts down, for
 * {@code System.exit} and SIGTERM as well. Each write ends with a whole line. So a program that hangs, or that fails, leaves a
 * log that {@code vyrd check} can read.
 */
public final class VyrdLog implements Closeable {
    private static final int LINE_BYTES = 64; // the most of a line, without its line feed
    private static final int OWN_LINE_BYTES = 200; // the same in a log of version 3
    private static final long MOST_ARGUMENT = (1L << 32) - 1;

    private final Sink sink;
    private final OptionalLong seed;
    private final ReentrantLock order = new ReentrantLock(); // held for a step
    private boolean finished; // under the order
    private final Object hands = new Object(); // guards what is below
    private final BitSet taken = new BitSet();
    private int lost; // taken by handles that were closed inside a call
    private final boolean[] inCall; // by their numbers; each is written in steps
    private final int callers;
    private final int lineBytes;
    private int waiting;
    private long meetings;

    private VyrdLog(Header header, OutputStream to, boolean owned, Options options) {
        seed = options.seed.isPresent() ? options.seed : seedOutside();
        callers = header.callers;
        inCall = new boolean[callers];
        lineBytes = header.version == 3 ? OWN_LINE_BYTES : LINE_BYTES;
        sink = new Sink(to, owned, options);
        byte[] first = header.lines().getBytes(StandardCharsets.UTF_8);
        sink.append(first, first.length);
        if (sink.watched) {
            Watch.SINKS.add(sink);
        }
    }

    /**
     * A log in a file, which is made anew, with the default options.
     *
     * @throws IOException where the file can't be opened
     * @throws IllegalArgumentException where the variable VYRD_SEED is set and no number below 2^64
     */
    public static VyrdLog create(Header header, Path path) throws IOException {
        return create(header, path, new Options());
    }

    /** As {@link #create(Header, Path)}, with these options. */
    public static VyrdLog create(Header header, Path path, Options options) throws IOException {
        return new VyrdLog(header, Files.newOutputStream(path), true, options);
    }

    /**
     * A log to a stream that is open, as {@code System.out}, and stays open. It is given whole lines.
     *
     * @throws IllegalArgumentException where there is no seed in the options, and the variable VYRD_SEED is set and no number
     *     below 2^64
     */
    public static VyrdLog to(OutputStream stream, Header header, Options options) {
        return new VyrdLog(header, stream, false, options);
    }

    /**
     * A handle for a thread, with the least number that is free.
     *
     * @throws IllegalStateException where all of the header's callers are handed out
     */
    public Caller caller() {
        synchronized (hands) {
            int number = taken.nextClearBit(0);
            if (number >= callers) {
                String closed = lost == 0 ? "" : " (closed inside a call: " + lost + ")";
                throw new IllegalStateException("no caller is free: all " + callers + " of the header are handed out" + closed);
            }
            taken.set(number);
            return new Caller(this, number);
        }
    }

    /**
     * Waits until so many threads are here, and lets them all go: a start barrier.
     *
     * @throws InterruptedException where the thread is interrupted while it waits
     */
    public void startTogether(int threads) throws InterruptedException {
        synchronized (hands) {
            long meeting = meetings;
            if (++waiting >= threads) {
                waiting = 0;
                meetings++;
                hands.notifyAll();
            }
            while (meetings == meeting) {
                hands.wait();
            }
        }
    }

    /**
     * Writes what is kept, and stays open.
     *
     * @throws IOException where a write has failed, now or before; what came after it isn't written
     */
    public void flush() throws IOException {
        sink.flushed();
    }

    /**
     * Writes {@code end} and what is kept: once, when all calls have returned. The log takes no step after it.
     *
     * @throws IllegalStateException where it was finished or closed before
     * @throws IOException where a write has failed, now or before
     */
    public void finish() throws IOException {
        order.lock();
        try {
            if (finished) {
                throw new IllegalStateException("a log is finished twice");
            }
            finished = true;
            byte[] last = {'e', 'n', 'd', '\n'};
            sink.append(last, last.length);
        } finally {
            order.unlock();
        }
        sink.close();
    }

    /**
     * Writes what is kept, and closes the file. A log that isn't finished gets no {@code end}: it says that the run wasn't.
     * Steps that come after it are left out.
     *
     * @throws IOException where a write has failed, now or before
     */
    @Override
    public void close() throws IOException {
        sink.close(); // not under the order: a thread may hang in its step
    }

    private static OptionalLong seedOutside() {
        String text = System.getenv("VYRD_SEED");
        if (text == null) {
            return OptionalLong.empty();
        }
        try {
            return OptionalLong.of(Long.parseUnsignedLong(text));
        } catch (NumberFormatException e) {
            throw new IllegalArgumentException("VYRD_SEED isn't a number below 2^64", e);
        }
    }

    /** The first lines of a log. */
    public static final class Header {
        private static final Set<String> SUBJECTS = Set.of("multiset", "cache", "tree", "buffers");

        private static final Pattern OWN = Pattern.compile("vyrd 3 own (0|[1-9][0-9]{0,4}) ([1-9][0-9]{0,2})");

        private final String lines;
        private final int callers;
        private final int version; // 0: of a text

        private Header(String lines, int callers, int version) {
            this.lines = lines;
            this.callers = callers;
            this.version = version;
        }

        /**
         * {@code vyrd VERSION SUBJECT SIZE CALLERS}.
         *
         * @param version 1 or 2
         * @param subject {@code multiset}, {@code cache}, {@code tree} or {@code buffers}
         * @param size from 1 to 1,024
         * @param callers from 1 to 64
         * @throws IllegalArgumentException where one is none of these
         */
        public static Header of(int version, String subject, int size, int callers) {
            check(version == 1 || version == 2, "the version of a log is 1 or 2");
            check(SUBJECTS.contains(subject), "no subject of a log: " + subject);
            check(size >= 1 && size <= 1024, "the size of a log is from 1 to 1,024");
            check(callers >= 1 && callers <= 64, "the callers of a log are from 1 to 64");
            return new Header("vyrd " + version + " " + subject + " " + size + " " + callers + "\n", callers, version);
        }

        /**
         * A header of version 2, with the values of the words that aren't 0 where the log begins, by the words' numbers. Those
         * of a value 0 are left out.
         *
         * @throws IllegalArgumentException as {@link #of}
         */
        public static Header withStart(String subject, int size, int callers, Map<Integer, Long> start) {
            return of(2, subject, size, callers).andStart(start);
        }

        /**
         * A header of version 3: a specification of your own, which stands in front of the log. It is the text of a file
         * {@code .spec}, from the line {@code vyrd 3 own WORDS CALLERS} to the line {@code log}. There are up to 65,536 words,
         * and from 1 to 256 callers. What stands between the two lines is for {@code vyrd check} to judge.
         *
         * @throws IllegalArgumentException where the first line or the last one is another
         */
        public static Header own(String specification) {
            String text = specification.endsWith("\n") ? specification : specification + "\n";
            Matcher first = OWN.matcher(text.substring(0, text.indexOf('\n')));
            check(!text.contains("\r\n") || first.matches() && text.endsWith("\nlog\n"),
                    "a line of the specification ends with a carriage return: lines end with a line feed alone");
            check(first.matches() && Integer.parseInt(first.group(1)) <= 65_536 && Integer.parseInt(first.group(2)) <= 256,
                    "a specification begins with the line `vyrd 3 own WORDS CALLERS`, with up to 65,536 words and from 1 to 256 "
                            + "callers");
            check(text.endsWith("\nlog\n"), "a specification ends with the line `log`");
            return new Header(text, Integer.parseInt(first.group(2)), 3);
        }

        /**
         * As {@link #own}, with the file's path.
         *
         * @throws IOException where the file can't be read
         */
        public static Header ownFile(Path path) throws IOException {
            return own(Files.readString(path));
        }

        /**
         * The same header with the values of the words that aren't 0 where the log begins, as {@link #withStart} has them: for
         * version 3.
         *
         * @throws IllegalArgumentException where the version is neither 2 nor 3
         */
        public Header andStart(Map<Integer, Long> start) {
            check(version >= 2, "words at the start are of versions 2 and 3");
            StringBuilder text = new StringBuilder(lines);
            new TreeMap<>(start).forEach((word, value) -> {
                if (value != 0) {
                    text.append("start ").append(word).append(' ').append(value).append('\n');
                }
            });
            return new Header(text.toString(), callers, version);
        }

        /**
         * Lines for the log to begin with as they are, for a header that this class doesn't know.
         *
         * @param callers how many handles the log hands out at a time, from 1 on
         * @throws IllegalArgumentException where there are no lines or no callers
         */
        public static Header text(String lines, int callers) {
            check(!lines.isEmpty(), "a log has a header");
            check(callers >= 1, "the callers of a log are from 1 on");
            return new Header(lines.endsWith("\n") ? lines : lines + "\n", callers, 0);
        }

        /** The lines, each with its line feed. */
        public String lines() {
            return lines;
        }

        private static void check(boolean holds, String sentence) {
            if (!holds) {
                throw new IllegalArgumentException(sentence);
            }
        }
    }

    /** How a log is written. All has a default. */
    public static final class Options {
        private OptionalLong seed = OptionalLong.empty();
        private int buffer = 64 * 1024;
        private boolean watched = true;

        /**
         * With a seed, callers yield or sleep for a moment before some of their steps, by numbers that the seed and their own
         * number give. Without one the variable VYRD_SEED is the seed; where it isn't set there are no such pauses.
         */
        public Options seed(long seed) {
            this.seed = OptionalLong.of(seed);
            return this;
        }

        /** How many bytes are kept before they are written: 65,536 by default. */
        public Options buffer(int bytes) {
            buffer = bytes;
            return this;
        }

        /**
         * Whether what is kept is written every 20 milliseconds and at the end by itself, from one thread for all logs. So it is
         * by default, and a log that nobody closes is then kept until the virtual machine ends.
         */
        public Options watched(boolean watched) {
            this.watched = watched;
            return this;
        }
    }

    /**
     * One caller of a log, for one thread at a time. Its number is given back where it is closed, and may then be that of another
     * thread; so close it when its last call has returned. Inside a call its number is kept, so that no other thread is blamed.
     */
    public static final class Caller implements AutoCloseable {
        private final VyrdLog log;
        private final int number;
        private final Lines lines;
        private long draw; // 0: no pauses
        private boolean closed;

        private Caller(VyrdLog log, int number) {
            this.log = log;
            this.number = number;
            lines = new Lines(number, log.lineBytes, log.inCall);
            if (log.seed.isPresent()) {
                draw = log.seed.getAsLong() * 0x9e3779b97f4a7c15L ^ (2L * number + 1);
                draw = draw == 0 ? 1 : draw;
            }
        }

        /** Its number, from 0 on and below the header's callers. */
        public int number() {
            return number;
        }

        /**
         * Runs the action with the step's lines. No step of another caller takes place meanwhile, so put no more than one change
         * into it, and nothing that waits. What it throws is passed on, and the lines that it has added stay.
         *
         * @throws IllegalStateException inside another step of this thread, after this handle was closed, and after the log is
         *     finished
         */
        public void step(Consumer<Lines> action) {
            stepGiving(given -> {
                action.accept(given);
                return null;
            });
        }

        /** As {@link #step}, and gives back what the action gives. */
        public <T> T stepGiving(Function<Lines, T> action) {
            begin();
            try {
                return action.apply(lines);
            } finally {
                log.sink.append(lines.text, lines.size);
                lines.clear(number);
                log.order.unlock();
            }
        }

        /** A call, in a step of its own, before the method does anything. See {@link Lines#call}. */
        public void call(String method, long... arguments) {
            step(given -> given.call(method, arguments));
        }

        /** A return, in a step of its own, after the method has done all. See {@link Lines#returns(long)}. */
        public void returns(long reply) {
            step(given -> given.returns(reply));
        }

        /** A return of 1 for true and 0 for false, in a step of its own. */
        public void returns(boolean reply) {
            returns(reply ? 1 : 0);
        }

        /** A commit in a step of its own, for an operation that takes effect without a change. */
        public void commit() {
            step(Lines::commit);
        }

        /** Gives the number back, except inside a call: what the log says of that call then stays this caller's. */
        @Override
        public void close() {
            synchronized (log.hands) {
                if (!closed) {
                    closed = true;
                    if (log.inCall[number]) {
                        log.lost++;
                    } else {
                        log.taken.clear(number);
                    }
                }
            }
        }

        private void begin() {
            pause();
            if (log.order.isHeldByCurrentThread()) {
                throw new IllegalStateException("a step inside a step of the same thread");
            }
            log.order.lock();
            if (log.finished || closed) {
                log.order.unlock();
                throw new IllegalStateException(closed ? "a step of a caller that is closed" : "a step of a log that is finished");
            }
        }

        private void pause() {
            if (draw == 0) {
                return;
            }
            draw ^= draw << 13;
            draw ^= draw >>> 7;
            draw ^= draw << 17;
            if ((draw & 255) == 0) {
                LockSupport.parkNanos((draw >>> 8) % 100_000);
            } else if ((draw & 7) == 0) {
                Thread.yield();
            }
        }
    }

    /**
     * The lines of one step. They stand in the log one after the other. A number that a log can't hold throws
     * IllegalArgumentException, as does a line that would have more than 64 bytes, or in version 3 more than 200; that line isn't
     * written. All else is for {@code vyrd check} to judge.
     */
    public static final class Lines {
        private byte[] text = new byte[512];
        private int size;
        private int begin; // where the line under way begins
        private int caller;
        private final int most; // bytes of a line
        private final boolean[] inCall; // the log's

        private Lines(int caller, int most, boolean[] inCall) {
            this.caller = caller;
            this.most = most;
            this.inCall = inCall;
        }

        /**
         * {@code call METHOD ARGUMENTS}. In the step of an action whose outcome says which method it was, or its arguments, call
         * and return may stand side by side, and lines of several calls too.
         *
         * @param arguments from 0 to below 2^32
         */
        public void call(String method, long... arguments) {
            for (long argument : arguments) {
                within("an argument", argument, MOST_ARGUMENT);
            }
            start("call ");
            add(method);
            for (long argument : arguments) {
                number(argument);
            }
            end();
        }

        /**
         * {@code return REPLY}.
         *
         * @param reply from 0 on: one from 2^63 on, which no long has, is written by {@link #entry}
         */
        public void returns(long reply) {
            within("a reply", reply, Long.MAX_VALUE);
            start("return");
            number(reply);
            end();
        }

        /** {@code return 1} for true and {@code return 0} for false. */
        public void returns(boolean reply) {
            returns(reply ? 1 : 0);
        }

        /**
         * {@code write WORD VALUE}.
         *
         * @param word one of the subject's words
         * @param value from 0 on
         */
        public void write(int word, long value) {
            within("a word", word, MOST_ARGUMENT);
            within("a value", value, Long.MAX_VALUE);
            start("write");
            number(word);
            number(value);
            end();
        }

        /** {@code commit}: the operation takes effect here. */
        public void commit() {
            entry("commit");
        }

        /** {@code open}: writes that take effect together begin. */
        public void open() {
            entry("open");
        }

        /** {@code close}: they end. */
        public void close() {
            entry("close");
        }

        /** {@code close commit}: they end, and the operation takes effect with them. */
        public void closeCommit() {
            entry("close commit");
        }

        /** An observer whole, its call and its return side by side: it is judged at this one place. */
        public void observed(long reply, String method, long... arguments) {
            call(method, arguments);
            returns(reply);
        }

        /**
         * {@code # WORDS}, in a log of version 3: it says nothing to {@code vyrd check}.
         *
         * @throws IllegalArgumentException in a log of another version, and where the words have a line feed
         */
        public void note(String words) {
            Header.check(most == OWN_LINE_BYTES, "notes are of version 3");
            Header.check(words.indexOf('\n') < 0, "a note has one line");
            begin = size;
            add("# ");
            for (byte part : words.getBytes(StandardCharsets.UTF_8)) {
                put(part);
            }
            end();
        }

        /** A note of the place in the source that calls it, as {@code # Queue.java:61}. */
        public void here() {
            StackWalker.StackFrame place = StackWalker.getInstance().walk(frames -> frames.skip(1).findFirst()).orElseThrow();
            note(place.getFileName() + ":" + place.getLineNumber());
        }

        /** An entry as it is, without the caller's number: for a form that this class doesn't know. */
        public void entry(String words) {
            start(words);
            end();
        }

        /** The lines of {@code body} are those of another caller, by its number, whose operation this step completes. */
        public void helping(int other, Consumer<Lines> body) {
            within("the number of a caller", other, Integer.MAX_VALUE);
            int own = caller;
            caller = other;
            try {
                body.accept(this);
            } finally {
                caller = own;
            }
        }

        private void clear(int own) {
            size = 0;
            caller = own;
        }

        private void start(String words) {
            begin = size;
            digits(caller);
            put(' ');
            add(words);
            boolean begins = words.startsWith("call ");
            if (caller < inCall.length && (begins || words.startsWith("return"))) {
                inCall[caller] = begins;
            }
        }

        private void end() {
            if (size - begin > most) {
                String line = new String(text, begin, size - begin, StandardCharsets.UTF_8);
                size = begin;
                throw new IllegalArgumentException("a line of a log has more than " + most + " bytes: " + line);
            }
            put('\n');
        }

        private void add(String words) {
            for (int i = 0; i < words.length(); i++) {
                put(words.charAt(i));
            }
        }

        private void number(long value) {
            put(' ');
            digits(value);
        }

        private static void within(String what, long number, long most) {
            if (number < 0 || number > most) {
                throw new IllegalArgumentException(what + " is from 0 to " + most + ", and not " + number);
            }
        }

        private void digits(long value) {
            int count = 1;
            for (long rest = value / 10; rest > 0; rest /= 10) {
                count++;
            }
            room(count);
            long rest = value;
            for (int i = size + count - 1; i >= size; i--) {
                text[i] = (byte) ('0' + rest % 10);
                rest /= 10;
            }
            size += count;
        }

        private void put(int c) {
            room(1);
            text[size++] = (byte) c;
        }

        private void room(int bytes) {
            if (size + bytes > text.length) {
                text = Arrays.copyOf(text, 2 * text.length);
            }
        }
    }

    /** The bytes of a log on their way to a file. What it keeps ends with a whole line, and so does each write. */
    private static final class Sink {
        private final OutputStream to;
        private final boolean owned;
        private final int capacity;
        private final boolean watched;
        private byte[] kept;
        private int size;
        private IOException error;
        private boolean closed;

        Sink(OutputStream to, boolean owned, Options options) {
            this.to = to;
            this.owned = owned;
            capacity = options.buffer;
            watched = options.watched;
            kept = new byte[capacity + 1024];
        }

        synchronized void append(byte[] lines, int count) {
            if (size + count > kept.length) {
                kept = Arrays.copyOf(kept, 2 * (size + count));
            }
            System.arraycopy(lines, 0, kept, size, count);
            size += count;
            if (size >= capacity) {
                flush();
            }
        }

        synchronized void flush() {
            if (size > 0 && error == null && !closed) {
                try {
                    to.write(kept, 0, size);
                    to.flush();
                } catch (IOException e) {
                    error = e;
                }
            }
            size = 0;
        }

        synchronized void flushed() throws IOException {
            flush();
            if (error != null) {
                throw new IOException("the log can't be written", error);
            }
        }

        synchronized void close() throws IOException {
            if (watched) {
                Watch.SINKS.remove(this);
            }
            if (closed) {
                return;
            }
            try {
                flushed();
            } finally {
                closed = true;
                if (owned) {
                    to.close();
                }
            }
        }
    }

    /** Writes what the logs keep, from a thread of its own. */
    private static final class Watch {
        static final Set<Sink> SINKS = ConcurrentHashMap.newKeySet();

        static {
            Runtime.getRuntime().addShutdownHook(new Thread(Watch::flush, "vyrd log, at the end"));
            Thread often = new Thread(Watch::flushOften, "vyrd log");
            often.setDaemon(true);
            often.start();
        }

        private Watch() {}

        private static void flush() {
            SINKS.forEach(Sink::flush);
        }

        private static void flushOften() {
            while (true) {
                LockSupport.parkNanos(20_000_000);
                flush();
            }
        }
    }
}
