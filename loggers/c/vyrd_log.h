// Writes the log of a concurrent program, which `vyrd check` judges. One header, C11, POSIX.
//
//     #define VYRD_LOG_IMPLEMENTATION // in one file of the program, before its other headers
//     #include "vyrd_log.h"
//
//     struct vyrd_log *log = vyrd_create(vyrd_header(1, "multiset", 1, 2), "run.log", NULL);
//     struct vyrd_caller *caller = vyrd_caller(log); // one for each thread
//     vyrd_call(caller, "insert", 5);
//     vyrd_begin(caller);
//     slot.value = 5; // what the program does, and the lines that tell of it, are one step
//     vyrd_write(caller, 1, 5);
//     vyrd_end(caller);
//     ...
//     vyrd_returns(caller, 1);
//     vyrd_finish(log);
//     vyrd_close(log);
//
// The steps of all callers take place one after the other, under one lock, so the lines stand in
// the order in which the program did what they tell of. Where the program has a lock round each
// change and each look, VYRD_NUMBERS does without this one.
//
// What a program may meet, as a file that can't be opened, is said by a NULL or a -1 and by
// vyrd_why. What is a mistake of the program itself, as a step inside a step, is said on standard
// error, and ends it by abort: the log has the lines of all steps that had ended.
#ifndef VYRD_LOG_H
#define VYRD_LOG_H

#ifdef __cplusplus
#error "this header is for C: C++ has vyrd_log.hpp"
#endif

#if !defined _GNU_SOURCE && !defined _DEFAULT_SOURCE && !defined _XOPEN_SOURCE
#define _XOPEN_SOURCE 700
#endif

#include <stdbool.h>
#include <stddef.h>
#include <stdint.h>

/// A log that is being written. Its calls may come from any thread.
struct vyrd_log;

/// One caller of a log, for one thread at a time.
struct vyrd_caller;

/// A word that isn't 0 where a log of version 2 or 3 begins.
struct vyrd_start {
    uint32_t word;
    uint64_t value;
};

/// The first lines of a log: what the calls below give. What it points to has to be there until the
/// log is opened, which also says what is wrong with it.
struct vyrd_header {
    unsigned version, size, callers;
    const char *subject;
    const char *lines; // not NULL: the lines as they are
    const char *own;   // not NULL: a specification, or the path of one
    bool own_is_path;
    const struct vyrd_start *start;
    size_t starts;
};

/// `vyrd VERSION SUBJECT SIZE CALLERS`: the version is 1 or 2, the subject `multiset`, `cache`,
/// `tree` or `buffers`, the size from 1 to 1,024, and the callers are from 1 to 64.
struct vyrd_header vyrd_header(unsigned version, const char *subject, unsigned size,
                               unsigned callers);

/// The same of version 2, with the words that aren't 0 where the log begins: `count` of them, in
/// any order. Those of a value 0 are left out.
struct vyrd_header vyrd_header_start(const char *subject, unsigned size, unsigned callers,
                                     const struct vyrd_start *start, size_t count);

/// Lines for the log to begin with as they are, for a header that isn't known here. `callers` is
/// how many handles the log hands out at a time, from 1 on.
struct vyrd_header vyrd_header_text(const char *lines, unsigned callers);

/// A log of version 3, with a specification of your own in front of it: the text of a file `.spec`,
/// from the line `vyrd 3 own WORDS CALLERS` to the line `log`. There are up to 65,536 words, and
/// from 1 to 256 callers. What stands between the two lines is for `vyrd check` to judge.
struct vyrd_header vyrd_header_own(const char *specification);

/// The same, with the file's path.
struct vyrd_header vyrd_header_own_file(const char *path);

/// The same header with the words that aren't 0 where the log begins, as above: for version 3.
struct vyrd_header vyrd_header_with(struct vyrd_header header, const struct vyrd_start *start,
                                    size_t count);

/// What puts the steps in an order.
enum vyrd_order {
    /// One lock of the log's own, which is held for a step: for any program.
    VYRD_LOCK,
    /// A number from one counter, which is drawn at the end of a step, while the program's own lock
    /// keeps others away. It disturbs the threads less, and is for programs alone where each change
    /// is made, and each look taken, under a lock of the program, with its step under that lock
    /// too.
    /// Calls are logged before that lock is taken, and returns after it is given back.
    VYRD_NUMBERS,
};

/// How a log is written. All zeros is the default.
struct vyrd_options {
    enum vyrd_order order;
    /// With a seed, callers yield or sleep for a moment before some of their steps, by numbers that
    /// the seed and their own number give. Without one the variable VYRD_SEED is the seed, if it is
    /// set; if it isn't, there are no such pauses.
    bool seeded;
    uint64_t seed;
    /// How many bytes are kept before they are written; 0 stands for 65,536.
    size_t buffer;
    /// By default what is kept is written by itself too: every 20 milliseconds, at exit, and before
    /// a fatal signal ends the program (SIGABRT, SIGBUS, SIGFPE, SIGILL, SIGSEGV, SIGHUP, SIGINT,
    /// SIGQUIT, SIGTERM, unless the program ignores it). The handlers that were there run after
    /// that. It takes one thread for all logs. This switches all of it off.
    bool unwatched;
};

/// The sentence about the last call of this thread that gave NULL or -1.
const char *vyrd_why(void);

/// A log in the file `path`, which is made anew. `options` may be NULL. NULL if the header isn't
/// one, if VYRD_SEED is set and no number below 2^64, or if the file can't be opened.
struct vyrd_log *vyrd_create(struct vyrd_header header, const char *path,
                             const struct vyrd_options *options);

/// A log to a descriptor that is open, as 1 for standard output, and stays open.
struct vyrd_log *vyrd_to(struct vyrd_header header, int descriptor,
                         const struct vyrd_options *options);

/// A handle for a thread, with the least number that is free. NULL if all of the header's callers
/// are handed out.
struct vyrd_caller *vyrd_caller(struct vyrd_log *log);

/// Waits until `threads` threads are here, and lets them all go: a start barrier.
void vyrd_start_together(struct vyrd_log *log, unsigned threads);

/// Writes what is kept, and stays open. -1 if a write has failed, now or before.
int vyrd_flush(struct vyrd_log *log);

/// Writes `end` and what is kept: once, when all calls have returned. The log takes no step after
/// it. -1 if a write has failed, now or before.
int vyrd_finish(struct vyrd_log *log);

/// Writes what is kept, closes the file, and frees the log with its callers' handles. One that
/// wasn't finished gets no `end`, and says so that the run wasn't.
void vyrd_close(struct vyrd_log *log);

/// Its number, from 0 on and below the header's callers.
unsigned vyrd_number(const struct vyrd_caller *caller);

/// Gives the number back, when its last call has returned. It may then be another thread's. Inside a
/// call it is kept, so that no other thread is blamed.
void vyrd_give_back(struct vyrd_caller *caller);

/// Begins a step: an action, and the lines that tell of it. No step of another caller takes place
/// until vyrd_end, so put no more than one change into it, and nothing that waits.
void vyrd_begin(struct vyrd_caller *caller);

/// Ends the step. Its lines stand in the log one after the other.
void vyrd_end(struct vyrd_caller *caller);

/// `call METHOD ARGUMENTS`: arguments are below 2^32. Outside a step it is a step of its own,
/// before the method does anything. In the step of an action whose outcome says which method it
/// was, or its arguments, call and return may stand side by side, and lines of several calls too.
#define vyrd_call(caller, ...)                                                                     \
    vyrd_call_of(caller, VYRD_FIRST(__VA_ARGS__, 0), VYRD_COUNT(__VA_ARGS__),                      \
                 VYRD_REST(__VA_ARGS__, 0))

/// An observer whole, its call and its return side by side, in a step: it is judged at this one
/// place.
#define vyrd_observed(caller, reply, ...)                                                          \
    (vyrd_call(caller, __VA_ARGS__), vyrd_returns(caller, reply))

/// `return REPLY`: a reply is below 2^64, in version 3 below 2^64 - 1; `true` is 1. Outside a step
/// it is a step of its own, after the method has done all.
void vyrd_returns(struct vyrd_caller *caller, uint64_t reply);

/// `commit`: the operation takes effect here. Outside a step it is a step of its own, for an
/// operation that takes effect without a change.
void vyrd_commit(struct vyrd_caller *caller);

/// `write WORD VALUE`, in a step: the word is one of the subject's, and the value below 2^63.
void vyrd_write(struct vyrd_caller *caller, uint32_t word, uint64_t value);

/// `open`, in a step: writes that take effect together begin.
void vyrd_open_block(struct vyrd_caller *caller);
/// `close`, in a step: they end.
void vyrd_close_block(struct vyrd_caller *caller);
/// `close commit`, in a step: they end, and the operation takes effect with them.
void vyrd_close_commit(struct vyrd_caller *caller);

/// `# WORDS`, in a step, in a log of version 3: it says nothing to `vyrd check`.
void vyrd_note(struct vyrd_caller *caller, const char *words);

/// A note of the place in the source where it stands, as `# queue.c:61`.
#define vyrd_here(caller) vyrd_here_of(caller, __FILE__, __LINE__)

/// An entry as it is, in a step, without the caller's number: for a form that isn't known here.
void vyrd_entry(struct vyrd_caller *caller, const char *words);

/// In a step, the lines from here on are those of another caller, whose operation this step
/// completes: until it is called with this caller's own number, or the step ends.
void vyrd_helping(struct vyrd_caller *caller, unsigned number);

// What the macros stand for. The array has one number more than are counted, since none is no
// array.
void vyrd_call_of(struct vyrd_caller *caller, const char *method, size_t count,
                  const uint64_t *arguments);
void vyrd_here_of(struct vyrd_caller *caller, const char *file, unsigned line);
#define VYRD_FIRST(...) VYRD_FIRST_OF(__VA_ARGS__, 0)
#define VYRD_FIRST_OF(first, ...) first
#define VYRD_REST(first, ...) ((const uint64_t[]){__VA_ARGS__})
#define VYRD_COUNT(...) (sizeof VYRD_REST(__VA_ARGS__, 0) / sizeof(uint64_t) - 1)

#endif

#ifdef VYRD_LOG_IMPLEMENTATION
#undef VYRD_LOG_IMPLEMENTATION

#include <errno.h>
#include <fcntl.h>
#include <poll.h>
#include <pthread.h>
#include <sched.h>
#include <signal.h>
#include <stdarg.h>
#include <stdatomic.h>
#include <stdio.h>
#include <stdlib.h>
#include <string.h>
#include <time.h>
#include <unistd.h>

#ifndef SA_ONSTACK
#error "include vyrd_log.h before the file's other headers, or compile with -std=gnu11"
#endif

enum { VYRD_LINE_BYTES = 64 };        // the most of a line, without its line feed
enum { VYRD_OWN_LINE_BYTES = 200 };   // the same in version 3
enum { VYRD_FULL = 1024 * 1024 };     // what a caller keeps before it merges all numbered steps
enum { VYRD_TICK_NS = 20 * 1000000 }; // between two looks for what is kept
enum { VYRD_PATIENCE_MS = 1000 };     // how long a thread with a fault waits for the logs

static _Thread_local char vyrd_sentence[256]; // its address says which thread it is, too

const char *vyrd_why(void) {
    return vyrd_sentence;
}

static void vyrd_say(const char *format, ...) {
    va_list values;
    va_start(values, format);
    vsnprintf(vyrd_sentence, sizeof vyrd_sentence, format, values);
    va_end(values);
}

_Noreturn static void vyrd_misused(const char *sentence) {
    fprintf(stderr, "vyrd_log: %s\n", sentence);
    abort();
}

// Bytes, and how many there is room for.
struct vyrd_text {
    char *bytes;
    size_t size, room;
};

static void *vyrd_room(void *at, size_t bytes) {
    void *now = realloc(at, bytes);
    if (!now) vyrd_misused("no memory is left");
    return now;
}

static void vyrd_add(struct vyrd_text *text, const char *bytes, size_t count) {
    if (text->size + count > text->room) {
        text->room = 2 * (text->size + count);
        text->bytes = vyrd_room(text->bytes, text->room);
    }
    if (count > 0) memcpy(text->bytes + text->size, bytes, count);
    text->size += count;
}

static void vyrd_digits(struct vyrd_text *text, uint64_t value) {
    char all[20]; // as many as the greatest value has
    size_t first = sizeof all;
    do {
        all[--first] = (char)('0' + value % 10);
        value /= 10;
    } while (value > 0);
    vyrd_add(text, all + first, sizeof all - first);
}

// A step that has a number, and where its lines end in its caller's text.
struct vyrd_step {
    uint64_t number;
    size_t end;
};

struct vyrd_caller {
    struct vyrd_log *log;
    unsigned number, writing; // whose lines are written: its own, or those of one that is helped
    bool taken, lost, inside; // the first two are guarded by the log's hands
    atomic_bool in_call;
    uint64_t draw;            // 0: no pauses
    struct vyrd_text text;    // the lines of the step under way
    pthread_mutex_t lock;     // guards the numbered steps that it keeps
    struct vyrd_text kept;
    struct vyrd_step *steps;
    size_t count, room;
};

struct vyrd_log {
    struct vyrd_options options;
    pid_t process;
    pthread_mutex_t order;       // held for a step, where this is what orders them
    _Atomic(const void *) owner; // the thread whose step it is, by the address of its sentence
    atomic_bool finished;
    atomic_uint_fast64_t next; // the number of the next step
    pthread_mutex_t merging;   // guards the one below
    uint64_t merged;           // all numbers below it are
    pthread_mutex_t writing;   // guards those below
    struct vyrd_text kept;     // it ends with a whole line, and so does each write
    int descriptor, error;
    bool owned;
    pthread_mutex_t hands; // guards those below
    pthread_cond_t all_here;
    unsigned waiting, callers;
    uint64_t meetings;
    size_t line_bytes;
    struct vyrd_log *watched; // the next one in the list
    struct vyrd_caller caller[];
};

// Writes what is kept, under the lock.
static void vyrd_put(struct vyrd_log *log) {
    const char *at = log->kept.bytes;
    size_t left = log->kept.size;
    while (left > 0 && log->error == 0) {
        ssize_t done = write(log->descriptor, at, left);
        if (done >= 0) {
            at += done;
            left -= (size_t)done;
        } else if (errno == EAGAIN || errno == EWOULDBLOCK) {
            struct pollfd ready = {.fd = log->descriptor, .events = POLLOUT};
            poll(&ready, 1, -1);
        } else if (errno != EINTR) {
            log->error = errno;
        }
    }
    log->kept.size = 0;
}

static void vyrd_append(struct vyrd_log *log, const char *lines, size_t size) {
    pthread_mutex_lock(&log->writing);
    vyrd_add(&log->kept, lines, size);
    if (log->kept.size >= log->options.buffer) vyrd_put(log);
    pthread_mutex_unlock(&log->writing);
}

// The second way to order steps: each has a number from one counter, and each caller keeps its own
// steps until they are merged. A number is drawn under the lock of the caller that keeps the step.
// So whoever reads the counter and then takes the locks one after the other finds each number below
// what was read, and no number is missing from a merge.
//
// This moves a caller's steps below a number to the end of `text`. `begins` and `ends` say where
// the lines of each stand there.
static void vyrd_take(struct vyrd_caller *caller, uint64_t below, struct vyrd_text *text,
                      size_t *begins, size_t *ends) {
    pthread_mutex_lock(&caller->lock);
    size_t first = text->size, bytes = 0, taken = 0;
    for (; taken < caller->count && caller->steps[taken].number < below; taken++) {
        size_t place = (size_t)(caller->steps[taken].number - caller->log->merged);
        begins[place] = first + bytes;
        bytes = caller->steps[taken].end;
        ends[place] = first + bytes;
    }
    if (taken > 0) {
        vyrd_add(text, caller->kept.bytes, bytes);
        caller->kept.size -= bytes;
        memmove(caller->kept.bytes, caller->kept.bytes + bytes, caller->kept.size);
        caller->count -= taken;
        memmove(caller->steps, caller->steps + taken, caller->count * sizeof *caller->steps);
        for (size_t n = 0; n < caller->count; n++)
            caller->steps[n].end -= bytes;
    }
    pthread_mutex_unlock(&caller->lock);
}

// Appends all numbered steps that were kept before this call.
static void vyrd_merge(struct vyrd_log *log) {
    if (log->options.order != VYRD_NUMBERS) return;
    pthread_mutex_lock(&log->merging);
    uint64_t below = log->next;
    size_t count = (size_t)(below - log->merged);
    if (count > 0) {
        size_t *begins = vyrd_room(NULL, 2 * count * sizeof *begins), *ends = begins + count;
        struct vyrd_text text = {0}, ordered = {0};
        for (unsigned n = 0; n < log->callers; n++)
            vyrd_take(&log->caller[n], below, &text, begins, ends);
        for (size_t n = 0; n < count; n++)
            vyrd_add(&ordered, text.bytes + begins[n], ends[n] - begins[n]);
        vyrd_append(log, ordered.bytes, ordered.size);
        free(begins);
        free(text.bytes);
        free(ordered.bytes);
        log->merged = below;
    }
    pthread_mutex_unlock(&log->merging);
}

static void vyrd_keep(struct vyrd_caller *caller) {
    pthread_mutex_lock(&caller->lock);
    if (caller->count == caller->room) {
        caller->room = 2 * caller->room + 64;
        caller->steps = vyrd_room(caller->steps, caller->room * sizeof *caller->steps);
    }
    uint64_t number = caller->log->next++;
    vyrd_add(&caller->kept, caller->text.bytes, caller->text.size);
    caller->steps[caller->count++] = (struct vyrd_step){number, caller->kept.size};
    bool full = caller->kept.size >= VYRD_FULL;
    pthread_mutex_unlock(&caller->lock);
    if (full) vyrd_merge(caller->log);
}

// A forked process has a copy of what its parent keeps, and leaves it to the parent.
static int vyrd_written(struct vyrd_log *log) {
    if (getpid() != log->process) return 0;
    vyrd_merge(log);
    pthread_mutex_lock(&log->writing);
    vyrd_put(log);
    int error = log->error;
    pthread_mutex_unlock(&log->writing);
    return error;
}

// Writes what the logs keep, from a thread of its own, which stays until the process ends. In a
// forked process that thread isn't there: the first log of that process has another.
static pthread_mutex_t vyrd_watching = PTHREAD_MUTEX_INITIALIZER; // guards the two below
static struct vyrd_log *vyrd_watched;
static bool vyrd_watches;
static pthread_once_t vyrd_once = PTHREAD_ONCE_INIT;

// First those of a fault: the thread that has one can't go on.
static const int vyrd_signals[] = {SIGABRT, SIGBUS, SIGFPE,  SIGILL, SIGSEGV,
                                   SIGHUP,  SIGINT, SIGQUIT, SIGTERM};
enum { VYRD_FAULTS = 5, VYRD_SIGNALS = 9 };
static struct sigaction vyrd_before[VYRD_SIGNALS];
static atomic_bool vyrd_faulted;    // a fault waits until this is false again
static atomic_int vyrd_ending = -1; // the index of another signal that came

static void vyrd_write_all(void) {
    pthread_mutex_lock(&vyrd_watching);
    for (struct vyrd_log *log = vyrd_watched; log; log = log->watched)
        vyrd_written(log);
    pthread_mutex_unlock(&vyrd_watching);
}

// It may interrupt anything, one that holds a lock of a log too. So it writes nothing, and asks the
// thread that watches. One with a fault waits for that; after another signal the program goes on
// until that thread sends the signal again.
static void vyrd_on_signal(int number, siginfo_t *info, void *context) {
    (void)context;
    int saved = errno, n = 0;
    while (vyrd_signals[n] != number)
        n++;
    if (n >= VYRD_FAULTS) {
        vyrd_ending = n;
    } else {
        vyrd_faulted = true;
        for (int waited = 0; vyrd_faulted && waited < VYRD_PATIENCE_MS; waited++)
            poll(NULL, 0, 1);
        sigaction(number, &vyrd_before[n], NULL);
        // A fault comes again when this has returned, and what was sent is sent again.
        if (info->si_code <= 0) raise(number);
    }
    errno = saved;
}

static void *vyrd_watch(void *nothing) {
    sigset_t all;
    sigfillset(&all);
    for (int n = 0; n < VYRD_FAULTS; n++)
        sigdelset(&all, vyrd_signals[n]);
    pthread_sigmask(SIG_BLOCK, &all, NULL); // the program's threads take its signals
    for (;;) {
        nanosleep(&(struct timespec){.tv_nsec = VYRD_TICK_NS}, NULL);
        bool faulted = vyrd_faulted;
        int ending = atomic_exchange(&vyrd_ending, -1);
        vyrd_write_all();
        if (faulted) vyrd_faulted = false;
        if (ending >= 0) {
            sigaction(vyrd_signals[ending], &vyrd_before[ending], NULL);
            kill(getpid(), vyrd_signals[ending]);
        }
    }
    return nothing;
}

static void vyrd_before_fork(void) {
    pthread_mutex_lock(&vyrd_watching);
}
static void vyrd_in_parent(void) {
    pthread_mutex_unlock(&vyrd_watching);
}
static void vyrd_in_child(void) {
    vyrd_watches = false;
    vyrd_watched = NULL;
    pthread_mutex_unlock(&vyrd_watching);
}

static void vyrd_begin_to_watch(void) {
    atexit(vyrd_write_all);
    pthread_atfork(vyrd_before_fork, vyrd_in_parent, vyrd_in_child);
    struct sigaction ours = {.sa_flags = SA_SIGINFO | SA_ONSTACK | SA_RESTART};
    ours.sa_sigaction = vyrd_on_signal;
    sigemptyset(&ours.sa_mask);
    for (int n = 0; n < VYRD_SIGNALS; n++) {
        sigaction(vyrd_signals[n], NULL, &vyrd_before[n]);
        if (vyrd_before[n].sa_handler != SIG_IGN) sigaction(vyrd_signals[n], &ours, NULL);
    }
}

static void vyrd_watch_too(struct vyrd_log *log) {
    pthread_once(&vyrd_once, vyrd_begin_to_watch);
    pthread_mutex_lock(&vyrd_watching);
    log->watched = vyrd_watched;
    vyrd_watched = log;
    pthread_t thread;
    if (!vyrd_watches && pthread_create(&thread, NULL, vyrd_watch, NULL) == 0) {
        pthread_detach(thread);
        vyrd_watches = true;
    }
    pthread_mutex_unlock(&vyrd_watching);
}

static void vyrd_watch_no_more(struct vyrd_log *log) {
    pthread_mutex_lock(&vyrd_watching);
    struct vyrd_log **at = &vyrd_watched;
    while (*at && *at != log)
        at = &(*at)->watched;
    if (*at) *at = log->watched;
    pthread_mutex_unlock(&vyrd_watching);
}

struct vyrd_header vyrd_header(unsigned version, const char *subject, unsigned size,
                               unsigned callers) {
    return (struct vyrd_header){
        .version = version, .subject = subject, .size = size, .callers = callers};
}

struct vyrd_header vyrd_header_start(const char *subject, unsigned size, unsigned callers,
                                     const struct vyrd_start *start, size_t count) {
    struct vyrd_header header = vyrd_header(2, subject, size, callers);
    header.start = start;
    header.starts = count;
    return header;
}

struct vyrd_header vyrd_header_text(const char *lines, unsigned callers) {
    return (struct vyrd_header){.lines = lines, .callers = callers};
}

struct vyrd_header vyrd_header_own(const char *specification) {
    return (struct vyrd_header){.version = 3, .own = specification};
}

struct vyrd_header vyrd_header_own_file(const char *path) {
    return (struct vyrd_header){.version = 3, .own = path, .own_is_path = true};
}

struct vyrd_header vyrd_header_with(struct vyrd_header header, const struct vyrd_start *start,
                                    size_t count) {
    header.start = start;
    header.starts = count;
    return header;
}

static int vyrd_by_word(const void *one, const void *other) {
    uint32_t a = ((const struct vyrd_start *)one)->word;
    uint32_t b = ((const struct vyrd_start *)other)->word;
    return (a > b) - (a < b);
}

// The starting lines of a header. False where a word has two values.
static bool vyrd_add_start(struct vyrd_text *lines, const struct vyrd_header *header) {
    size_t count = header->starts, bytes = count * sizeof *header->start;
    if (count == 0) return true;
    if (header->version < 2) {
        vyrd_say("words at the start are of versions 2 and 3");
        return false;
    }
    struct vyrd_start *start = memcpy(vyrd_room(NULL, bytes), header->start, bytes);
    qsort(start, count, sizeof *start, vyrd_by_word);
    bool once = true;
    for (size_t n = 0; n < count && once; n++) {
        char line[VYRD_LINE_BYTES];
        int size = snprintf(line, sizeof line, "start %lu %llu\n", (unsigned long)start[n].word,
                            (unsigned long long)start[n].value);
        if (start[n].value != 0) vyrd_add(lines, line, (size_t)size);
        once = n == 0 || start[n - 1].word != start[n].word;
        if (!once) vyrd_say("two values of word %lu at the start", (unsigned long)start[n].word);
    }
    free(start);
    return once;
}

// The bytes of a file. False if it can't be read.
static bool vyrd_add_file(struct vyrd_text *text, const char *path) {
    FILE *file = fopen(path, "rb");
    bool read = file;
    while (read && !feof(file)) {
        char bytes[4096];
        vyrd_add(text, bytes, fread(bytes, 1, sizeof bytes, file));
        read = !ferror(file);
    }
    if (!read) vyrd_say("can't read %s: %s", path, strerror(errno));
    if (file) fclose(file);
    return read;
}

// The lines of a specification, and how many callers its first line has. False if it isn't one.
static bool vyrd_add_own(struct vyrd_text *lines, struct vyrd_header *header) {
    if (!header->own_is_path)
        vyrd_add(lines, header->own, strlen(header->own));
    else if (!vyrd_add_file(lines, header->own))
        return false;
    if (lines->size == 0 || lines->bytes[lines->size - 1] != '\n') vyrd_add(lines, "\n", 1);
    vyrd_add(lines, "", 1);
    lines->size--; // the text ends with a 0, which isn't part of it
    unsigned words = 0, callers = 0;
    char first[VYRD_LINE_BYTES];
    sscanf(lines->bytes, "vyrd 3 own %u %u", &words, &callers);
    // It is compared with its one spelling, so nothing else is taken for a header.
    int size = snprintf(first, sizeof first, "vyrd 3 own %u %u\n", words, callers);
    bool begins = strncmp(lines->bytes, first, (size_t)size) == 0;
    bool ends = lines->size >= 5 && strcmp(lines->bytes + lines->size - 5, "\nlog\n") == 0;
    if (strstr(lines->bytes, "\r\n") && !(begins && ends)) {
        vyrd_say("a line of the specification ends with a carriage return: lines end with a line "
                 "feed alone");
        return false;
    }
    if (!begins || words > 65536 || callers < 1 || callers > 256) {
        vyrd_say("a specification begins with the line `vyrd 3 own WORDS CALLERS`, with up to "
                 "65,536 words and from 1 to 256 callers");
        return false;
    }
    header->callers = callers;
    if (!ends) vyrd_say("a specification ends with the line `log`");
    return ends && vyrd_add_start(lines, header);
}

// The lines of a header, each with its line feed. False if it isn't one.
static bool vyrd_add_header(struct vyrd_text *lines, struct vyrd_header *header) {
    static const char *const subjects[] = {"multiset", "cache", "tree", "buffers"};
    if (header->own) return vyrd_add_own(lines, header);
    if (header->lines) {
        size_t size = strlen(header->lines);
        vyrd_add(lines, header->lines, size);
        if (size > 0 && header->lines[size - 1] != '\n') vyrd_add(lines, "\n", 1);
        if (size == 0) vyrd_say("a log has a header");
        if (header->callers == 0) vyrd_say("the callers of a log are from 1 on");
        return size > 0 && header->callers > 0;
    }
    bool known = false;
    for (size_t n = 0; n < sizeof subjects / sizeof *subjects; n++)
        known = known || strcmp(header->subject, subjects[n]) == 0;
    char line[VYRD_LINE_BYTES];
    if (header->version != 1 && header->version != 2) {
        vyrd_say("the version of a log is 1 or 2");
    } else if (!known) {
        vyrd_say("no subject of a log: %s", header->subject);
    } else if (header->size < 1 || header->size > 1024) {
        vyrd_say("the size of a log is from 1 to 1,024");
    } else if (header->callers < 1 || header->callers > 64) {
        vyrd_say("the callers of a log are from 1 to 64");
    } else {
        int size = snprintf(line, sizeof line, "vyrd %u %s %u %u\n", header->version,
                            header->subject, header->size, header->callers);
        vyrd_add(lines, line, (size_t)size);
        return vyrd_add_start(lines, header);
    }
    return false;
}

// The seed of the variable VYRD_SEED, if it is set. False if it is no number.
static bool vyrd_seed_outside(struct vyrd_options *options) {
    const char *text = getenv("VYRD_SEED");
    if (!text || options->seeded) return true;
    char *last = NULL;
    errno = 0;
    options->seed = strtoull(text, &last, 10);
    options->seeded = text[0] >= '0' && text[0] <= '9' && *last == '\0' && errno == 0;
    if (!options->seeded) vyrd_say("VYRD_SEED isn't a number below 2^64");
    return options->seeded;
}

static void vyrd_make_caller(struct vyrd_log *log, unsigned number) {
    struct vyrd_caller *caller = &log->caller[number];
    *caller = (struct vyrd_caller){.log = log, .number = number, .writing = number};
    pthread_mutex_init(&caller->lock, NULL);
    // Two multiples of odd numbers: never 0 together, as seeds and numbers go.
    if (log->options.seeded) caller->draw = log->options.seed * 0x9e3779b97f4a7c15 + number * 2 + 1;
}

static struct vyrd_log *vyrd_made(const struct vyrd_header *header, struct vyrd_options options,
                                  struct vyrd_text lines, int descriptor, bool owned) {
    size_t bytes = sizeof(struct vyrd_log) + header->callers * sizeof(struct vyrd_caller);
    struct vyrd_log *log = vyrd_room(NULL, bytes);
    *log = (struct vyrd_log){.options = options, .process = getpid(), .callers = header->callers};
    log->kept = lines;
    log->descriptor = descriptor;
    log->owned = owned;
    log->line_bytes = header->own ? VYRD_OWN_LINE_BYTES : VYRD_LINE_BYTES;
    pthread_mutex_t *locks[] = {&log->order, &log->merging, &log->writing, &log->hands};
    for (size_t n = 0; n < sizeof locks / sizeof *locks; n++)
        pthread_mutex_init(locks[n], NULL);
    pthread_cond_init(&log->all_here, NULL);
    for (unsigned n = 0; n < header->callers; n++)
        vyrd_make_caller(log, n);
    if (!options.unwatched) vyrd_watch_too(log);
    return log;
}

// A log to the file, or to the descriptor if there is no path.
static struct vyrd_log *vyrd_opened(struct vyrd_header *header, const char *path, int descriptor,
                                    const struct vyrd_options *given) {
    struct vyrd_options options = given ? *given : (struct vyrd_options){0};
    struct vyrd_text lines = {0};
    if (options.buffer == 0) options.buffer = 64 * 1024;
    bool good = vyrd_add_header(&lines, header) && vyrd_seed_outside(&options);
    if (good && path) {
        descriptor = open(path, O_WRONLY | O_CREAT | O_TRUNC | O_CLOEXEC, 0666);
        if (descriptor < 0) vyrd_say("can't open %s: %s", path, strerror(errno));
        good = descriptor >= 0;
    }
    if (good) return vyrd_made(header, options, lines, descriptor, path != NULL);
    free(lines.bytes);
    return NULL;
}

struct vyrd_log *vyrd_create(struct vyrd_header header, const char *path,
                             const struct vyrd_options *options) {
    return vyrd_opened(&header, path, -1, options);
}

struct vyrd_log *vyrd_to(struct vyrd_header header, int descriptor,
                         const struct vyrd_options *options) {
    return vyrd_opened(&header, NULL, descriptor, options);
}

struct vyrd_caller *vyrd_caller(struct vyrd_log *log) {
    pthread_mutex_lock(&log->hands);
    unsigned n = 0, lost = 0;
    while (n < log->callers && log->caller[n].taken)
        lost += log->caller[n++].lost;
    bool found = n < log->callers;
    if (found) log->caller[n].taken = true;
    pthread_mutex_unlock(&log->hands);
    if (!found && lost == 0)
        vyrd_say("no caller is free: all %u of the header are handed out", log->callers);
    else if (!found)
        vyrd_say("no caller is free: all %u of the header are handed out (given back inside a "
                 "call: %u)",
                 log->callers, lost);
    return found ? &log->caller[n] : NULL;
}

void vyrd_give_back(struct vyrd_caller *caller) {
    pthread_mutex_lock(&caller->log->hands);
    caller->lost = atomic_load(&caller->in_call);
    caller->taken = caller->lost;
    pthread_mutex_unlock(&caller->log->hands);
}

unsigned vyrd_number(const struct vyrd_caller *caller) {
    return caller->number;
}

void vyrd_start_together(struct vyrd_log *log, unsigned threads) {
    pthread_mutex_lock(&log->hands);
    uint64_t meeting = log->meetings;
    if (++log->waiting >= threads) {
        log->waiting = 0;
        log->meetings++;
        pthread_cond_broadcast(&log->all_here);
    }
    while (log->meetings == meeting)
        pthread_cond_wait(&log->all_here, &log->hands);
    pthread_mutex_unlock(&log->hands);
}

int vyrd_flush(struct vyrd_log *log) {
    int error = vyrd_written(log);
    if (error != 0) vyrd_say("the log can't be written: %s", strerror(error));
    return error == 0 ? 0 : -1;
}

int vyrd_finish(struct vyrd_log *log) {
    pthread_mutex_lock(&log->order);
    if (atomic_exchange(&log->finished, true)) vyrd_misused("a log is finished twice");
    vyrd_merge(log);
    vyrd_append(log, "end\n", 4);
    pthread_mutex_unlock(&log->order);
    return vyrd_flush(log);
}

void vyrd_close(struct vyrd_log *log) {
    if (!log) return;
    if (!log->options.unwatched) vyrd_watch_no_more(log);
    vyrd_written(log);
    if (log->owned) close(log->descriptor);
    for (unsigned n = 0; n < log->callers; n++) {
        free(log->caller[n].text.bytes);
        free(log->caller[n].kept.bytes);
        free(log->caller[n].steps);
    }
    free(log->kept.bytes);
    free(log);
}

static void vyrd_pause(struct vyrd_caller *caller) {
    if (caller->draw == 0) return;
    caller->draw ^= caller->draw << 13;
    caller->draw ^= caller->draw >> 7;
    caller->draw ^= caller->draw << 17;
    if (caller->draw % 256 == 0)
        nanosleep(&(struct timespec){.tv_nsec = (long)(caller->draw / 256 % 100 * 1000)}, NULL);
    else if (caller->draw % 8 == 0)
        sched_yield();
}

void vyrd_begin(struct vyrd_caller *caller) {
    struct vyrd_log *log = caller->log;
    vyrd_pause(caller);
    if (caller->inside || atomic_load_explicit(&log->owner, memory_order_relaxed) == vyrd_sentence)
        vyrd_misused("a step inside a step of the same thread");
    if (log->options.order == VYRD_LOCK) {
        pthread_mutex_lock(&log->order);
        atomic_store_explicit(&log->owner, vyrd_sentence, memory_order_relaxed);
    }
    if (log->finished) vyrd_misused("a step of a log that is finished");
    caller->inside = true;
}

void vyrd_end(struct vyrd_caller *caller) {
    struct vyrd_log *log = caller->log;
    if (!caller->inside) vyrd_misused("a step ends that hasn't begun");
    if (log->options.order == VYRD_NUMBERS)
        vyrd_keep(caller);
    else
        vyrd_append(log, caller->text.bytes, caller->text.size);
    caller->text.size = 0;
    caller->writing = caller->number;
    caller->inside = false;
    if (log->options.order == VYRD_LOCK) {
        atomic_store_explicit(&log->owner, NULL, memory_order_relaxed);
        pthread_mutex_unlock(&log->order);
    }
}

// Ends a line of the step under way, which began there.
static void vyrd_end_line(struct vyrd_caller *caller, size_t begin) {
    size_t most = caller->log->line_bytes;
    if (caller->text.size - begin > most)
        vyrd_misused(most == VYRD_LINE_BYTES ? "a line of a log has more than 64 bytes"
                                             : "a line of a log has more than 200 bytes");
    vyrd_add(&caller->text, "\n", 1);
}

// A line of the step under way.
static void vyrd_line(struct vyrd_caller *caller, const char *words, size_t count,
                      const uint64_t *numbers) {
    if (!caller->inside) vyrd_misused("a line outside a step");
    struct vyrd_text *text = &caller->text;
    size_t begin = text->size;
    vyrd_digits(text, caller->writing);
    vyrd_add(text, " ", 1);
    vyrd_add(text, words, strlen(words));
    for (size_t n = 0; n < count; n++) {
        vyrd_add(text, " ", 1);
        vyrd_digits(text, numbers[n]);
    }
    vyrd_end_line(caller, begin);
    bool begins = strncmp(words, "call ", 5) == 0;
    if ((begins || strncmp(words, "return", 6) == 0) && caller->writing < caller->log->callers)
        atomic_store_explicit(&caller->log->caller[caller->writing].in_call, begins,
                              memory_order_relaxed);
}

// The same, or a step of this line alone.
static void vyrd_line_or_step(struct vyrd_caller *caller, const char *words, size_t count,
                              const uint64_t *numbers) {
    bool alone = !caller->inside;
    if (alone) vyrd_begin(caller);
    vyrd_line(caller, words, count, numbers);
    if (alone) vyrd_end(caller);
}

void vyrd_call_of(struct vyrd_caller *caller, const char *method, size_t count,
                  const uint64_t *arguments) {
    for (size_t n = 0; n < count; n++)
        if (arguments[n] > UINT32_MAX) vyrd_misused("an argument is from 0 to 4294967295");
    char words[VYRD_OWN_LINE_BYTES + 2]; // a longer one is cut to a line that is too long
    snprintf(words, sizeof words, "call %s", method);
    vyrd_line_or_step(caller, words, count, arguments);
}

void vyrd_returns(struct vyrd_caller *caller, uint64_t reply) {
    if (reply == UINT64_MAX && caller->log->line_bytes == VYRD_OWN_LINE_BYTES)
        vyrd_misused("a reply is from 0 to 18446744073709551614");
    vyrd_line_or_step(caller, "return", 1, &reply);
}

void vyrd_commit(struct vyrd_caller *caller) {
    vyrd_line_or_step(caller, "commit", 0, NULL);
}

void vyrd_write(struct vyrd_caller *caller, uint32_t word, uint64_t value) {
    if (value > INT64_MAX) vyrd_misused("a value is from 0 to 9223372036854775807");
    vyrd_line(caller, "write", 2, (const uint64_t[]){word, value});
}

void vyrd_open_block(struct vyrd_caller *caller) {
    vyrd_line(caller, "open", 0, NULL);
}
void vyrd_close_block(struct vyrd_caller *caller) {
    vyrd_line(caller, "close", 0, NULL);
}
void vyrd_close_commit(struct vyrd_caller *caller) {
    vyrd_line(caller, "close commit", 0, NULL);
}

void vyrd_note(struct vyrd_caller *caller, const char *words) {
    if (!caller->inside) vyrd_misused("a line outside a step");
    if (caller->log->line_bytes != VYRD_OWN_LINE_BYTES) vyrd_misused("notes are of version 3");
    if (strchr(words, '\n')) vyrd_misused("a note has one line");
    size_t begin = caller->text.size;
    vyrd_add(&caller->text, "# ", 2);
    vyrd_add(&caller->text, words, strlen(words));
    vyrd_end_line(caller, begin);
}

void vyrd_here_of(struct vyrd_caller *caller, const char *file, unsigned line) {
    const char *name = strrchr(file, '/');
    char words[VYRD_OWN_LINE_BYTES + 2];
    snprintf(words, sizeof words, "%s:%u", name ? name + 1 : file, line);
    vyrd_note(caller, words);
}

void vyrd_entry(struct vyrd_caller *caller, const char *words) {
    vyrd_line(caller, words, 0, NULL);
}

void vyrd_helping(struct vyrd_caller *caller, unsigned number) {
    if (!caller->inside) vyrd_misused("a line outside a step");
    caller->writing = number;
}

#endif
