// What stands in a log byte by byte, and what is refused.
#define VYRD_LOG_IMPLEMENTATION
#include "../vyrd_log.h"

#include <sys/wait.h>

static int failed;

static void expect(bool holds, const char *what) {
    if (holds) return;
    failed++;
    printf("failed: %s\n", what);
}

static void starts(const char *got, const char *wanted) {
    if (strncmp(got, wanted, strlen(wanted)) == 0) return;
    failed++;
    printf("failed: wanted: %s\ngot: %s\n", wanted, got);
}

static const char *const path = "unit.log"; // the tests run in a folder of their own

// What the log has that was written there, until the next call.
static const char *written(void) {
    static char *text;
    FILE *file = fopen(path, "rb");
    free(text);
    text = calloc(1, 4 << 20);
    if (!text || !file || fread(text, 1, (4 << 20) - 1, file) == 0) expect(false, "no log");
    if (file) fclose(file);
    remove(path);
    return text;
}

static struct vyrd_log *made(struct vyrd_header header) {
    return vyrd_create(header, path, &(struct vyrd_options){.unwatched = true});
}

static void each_line(void) {
    struct vyrd_log *log = made(vyrd_header(1, "tree", 2, 3));
    struct vyrd_caller *first = vyrd_caller(log), *second = vyrd_caller(log);
    vyrd_call(first, "insert", 4294967295, 0);
    vyrd_begin(first);
    vyrd_open_block(first);
    vyrd_write(first, 4, UINT64_C(1) << 62);
    vyrd_write(first, 1, 1);
    vyrd_close_block(first);
    vyrd_close_commit(first);
    vyrd_entry(first, "commit");
    vyrd_end(first);
    vyrd_commit(first);
    vyrd_returns(first, UINT64_MAX);
    vyrd_begin(second);
    vyrd_observed(second, 1, "lookup", 7);
    vyrd_call(second, "delete", 7);
    vyrd_helping(second, 2);
    vyrd_commit(second);
    vyrd_helping(second, vyrd_number(second));
    vyrd_commit(second);
    vyrd_returns(second, false);
    vyrd_helping(second, 0);
    vyrd_end(second);
    vyrd_call(second, "none");
    expect(vyrd_finish(log) == 0, "a log that is finished");
    vyrd_close(log);
    const char *wanted = "vyrd 1 tree 2 3\n"
                         "0 call insert 4294967295 0\n"
                         "0 open\n0 write 4 4611686018427387904\n0 write 1 1\n0 close\n"
                         "0 close commit\n0 commit\n0 commit\n0 return 18446744073709551615\n"
                         "1 call lookup 7\n1 return 1\n1 call delete 7\n2 commit\n1 commit\n"
                         "1 return 0\n1 call none\nend\n";
    expect(strcmp(written(), wanted) == 0, "each line");
}

static void refuses(struct vyrd_header header, const char *sentence) {
    expect(!vyrd_create(header, path, NULL), sentence);
    starts(vyrd_why(), sentence);
}

static void headers(void) {
    const struct vyrd_start start[] = {{3, 0}, {1, 5}, {0, 2}, {1, 6}};
    vyrd_close(made(vyrd_header_start("multiset", 1, 1, start, 3)));
    starts(written(), "vyrd 2 multiset 1 1\nstart 0 2\nstart 1 5\n");
    vyrd_close(made(vyrd_header_text("vyrd 3 own 0 100\nlog", 100)));
    starts(written(), "vyrd 3 own 0 100\nlog\n");
    refuses(vyrd_header_start("multiset", 1, 1, start, 4), "two values of word 1 at the start");
    refuses(vyrd_header_with(vyrd_header(1, "multiset", 1, 1), start, 1),
            "words at the start are of versions 2 and 3");
    refuses(vyrd_header(3, "multiset", 1, 1), "the version of a log is 1 or 2");
    refuses(vyrd_header(1, "queue", 1, 1), "no subject of a log: queue");
    refuses(vyrd_header(1, "tree", 0, 1), "the size of a log is from 1 to 1,024");
    refuses(vyrd_header(1, "tree", 1025, 1), "the size of a log is from 1 to 1,024");
    refuses(vyrd_header(1, "tree", 1, 0), "the callers of a log are from 1 to 64");
    refuses(vyrd_header(1, "tree", 1, 65), "the callers of a log are from 1 to 64");
    refuses(vyrd_header_text("", 1), "a log has a header");
    refuses(vyrd_header_text("vyrd 3 own 0 0", 0), "the callers of a log are from 1 on");
}

static const char *const specification = "vyrd 3 own 2 200\nlist all\nmethod take x\n  answer 0\n"
                                         "  allow (reply == 1)\n    drop first all\nlog\n";

// Whether a log begins so, with a specification and words at the start.
static void begins(struct vyrd_header header, const char *what) {
    const struct vyrd_start start[] = {{1, 7}, {0, 5}};
    vyrd_close(made(vyrd_header_with(header, start, 2)));
    char wanted[200];
    snprintf(wanted, sizeof wanted, "%sstart 0 5\nstart 1 7\n", specification);
    expect(strcmp(written(), wanted) == 0, what);
}

static void own_headers(void) {
    char text[200];
    begins(vyrd_header_own(specification), "a specification");
    snprintf(text, sizeof text, "%.*s", (int)strlen(specification) - 1, specification);
    begins(vyrd_header_own(text), "a specification without its last line feed");
    FILE *file = fopen("unit.spec", "wb");
    fputs(specification, file);
    fclose(file);
    begins(vyrd_header_own_file("unit.spec"), "a specification in a file");
    remove("unit.spec");
    refuses(vyrd_header_own_file("unit.spec"), "can't read unit.spec: ");
    refuses(vyrd_header_own_file("."), "can't read .: ");
    const char *const firsts[] = {"",
                                  "vyrd 2 own 0 1",
                                  "vyrd 3 own 0",
                                  "vyrd 3 own 0 0",
                                  "vyrd 3 own 0 257",
                                  "vyrd 3 own 65537 1",
                                  "vyrd 3 own 00 1",
                                  "vyrd 3 own 0 1 ",
                                  "vyrd 3 own -1 1",
                                  "vyrd 3 own 4294967296 1",
                                  "\nvyrd 3 own 0 1"};
    for (size_t n = 0; n < sizeof firsts / sizeof *firsts; n++) {
        snprintf(text, sizeof text, "%s\nlog\n", firsts[n]);
        refuses(vyrd_header_own(text), "a specification begins with the line `vyrd 3 own WORDS");
    }
    const char *const rests[] = {"", "\nmethod x", "\nlog\n\n", "\n log", "\nlog\nend"};
    for (size_t n = 0; n < sizeof rests / sizeof *rests; n++) {
        snprintf(text, sizeof text, "vyrd 3 own 65536 256%s", rests[n]);
        refuses(vyrd_header_own(text), "a specification ends with the line `log`");
    }
    const char *const returns[] = {"\r\nlog\r\n", "\r\nlog\n", "\nlog\r\n"};
    for (size_t n = 0; n < sizeof returns / sizeof *returns; n++) {
        snprintf(text, sizeof text, "vyrd 3 own 65536 256%s", returns[n]);
        refuses(vyrd_header_own(text), "a line of the specification ends with a carriage return: ");
    }
}

// `size` times an x.
static const char *many(size_t size) {
    static char text[300];
    memset(text, 'x', size);
    text[size] = '\0';
    return text;
}

// Lines of 200 bytes, notes, a call in the step that decides it, and one that commits nothing.
static void own_lines(void) {
    struct vyrd_log *log = made(vyrd_header_own(specification));
    struct vyrd_caller *caller = vyrd_caller(log);
    vyrd_begin(caller);
    vyrd_note(caller, "all at once");
    unsigned place = __LINE__ + 1;
    vyrd_here(caller);
    vyrd_note(caller, many(198));
    vyrd_call(caller, "take", 5);
    vyrd_commit(caller);
    vyrd_end(caller);
    vyrd_returns(caller, 1);
    vyrd_call(caller, many(41), 4294967295, 4294967295, 4294967295);
    vyrd_returns(caller, 0);
    expect(vyrd_finish(log) == 0, "a log of version 3");
    vyrd_close(log);
    char wanted[1000];
    int size = snprintf(wanted, sizeof wanted, "%s# all at once\n# unit.c:%u\n# %s\n",
                        specification, place, many(198));
    snprintf(wanted + size, sizeof wanted - (size_t)size,
             "0 call take 5\n0 commit\n0 return 1\n0 call %s 4294967295 4294967295 4294967295\n"
             "0 return 0\nend\n",
             many(41));
    expect(strcmp(written(), wanted) == 0, "each line of version 3");
}

static void handles(void) {
    struct vyrd_log *log = made(vyrd_header(1, "multiset", 1, 2));
    struct vyrd_caller *first = vyrd_caller(log), *second = vyrd_caller(log);
    expect(!vyrd_caller(log), "a third of two callers");
    starts(vyrd_why(), "no caller is free: all 2 of the header are handed out");
    vyrd_give_back(first);
    first = vyrd_caller(log);
    expect(first && vyrd_number(first) == 0 && vyrd_number(second) == 1, "the least that is free");
    expect(!vyrd_caller(log), "a third of two callers");
    vyrd_close(log);
}

// Its number isn't another thread's, whose call would then stand inside its own.
static void handles_that_are_given_back_inside_a_call(void) {
    struct vyrd_log *log = made(vyrd_header(1, "multiset", 1, 2));
    struct vyrd_caller *first = vyrd_caller(log), *second = vyrd_caller(log);
    vyrd_call(first, "insert", 5);
    vyrd_give_back(first);
    expect(!vyrd_caller(log), "a third of two callers");
    starts(vyrd_why(), "no caller is free: all 2 of the header are handed out (given back inside "
                       "a call: 1)");
    vyrd_call(second, "insert", 5);
    vyrd_begin(second);
    vyrd_entry(second, "return 0");
    vyrd_end(second);
    vyrd_give_back(second);
    struct vyrd_caller *third = vyrd_caller(log);
    expect(third && vyrd_number(third) == 1, "the one that has returned");
    vyrd_begin(third);
    vyrd_helping(third, 0);
    vyrd_returns(third, 1);
    vyrd_end(third);
    vyrd_call(third, "delete", 5);
    vyrd_give_back(third);
    expect(!vyrd_caller(log), "both are given back inside a call");
    vyrd_close(log);
}

static void inside(struct vyrd_log *log, struct vyrd_caller *caller) {
    (void)log;
    vyrd_begin(caller);
    vyrd_begin(caller);
}

static void inside_another(struct vyrd_log *log, struct vyrd_caller *caller) {
    vyrd_begin(caller);
    vyrd_commit(vyrd_caller(log));
}

static void outside(struct vyrd_log *log, struct vyrd_caller *caller) {
    (void)log;
    vyrd_write(caller, 0, 2);
}

static void helping_outside(struct vyrd_log *log, struct vyrd_caller *caller) {
    (void)log;
    vyrd_helping(caller, 1);
}

static void late(struct vyrd_log *log, struct vyrd_caller *caller) {
    vyrd_finish(log);
    vyrd_commit(caller);
}

static void twice(struct vyrd_log *log, struct vyrd_caller *caller) {
    (void)caller;
    vyrd_finish(log);
    vyrd_finish(log);
}

static void too_long(struct vyrd_log *log, struct vyrd_caller *caller) {
    (void)log;
    char longest[66 - sizeof "0 call "];
    memset(longest, 'x', sizeof longest);
    longest[sizeof longest - 1] = '\0';
    vyrd_call(caller, longest);
    vyrd_call(caller, longest, 1);
}

static void large_argument(struct vyrd_log *log, struct vyrd_caller *caller) {
    (void)log;
    vyrd_call(caller, "insert", 5, -1);
}

static void large_value(struct vyrd_log *log, struct vyrd_caller *caller) {
    (void)log;
    vyrd_begin(caller);
    vyrd_write(caller, 0, UINT64_C(1) << 63);
}

static void large_reply(struct vyrd_log *log, struct vyrd_caller *caller) {
    (void)log, (void)caller;
    vyrd_returns(vyrd_caller(made(vyrd_header_own(specification))), UINT64_MAX);
}

static void note_of_version_1(struct vyrd_log *log, struct vyrd_caller *caller) {
    (void)log;
    vyrd_begin(caller);
    vyrd_note(caller, "here");
}

static void note_outside(struct vyrd_log *log, struct vyrd_caller *caller) {
    (void)log;
    vyrd_here(caller);
}

static void in_version_3(const char *words) {
    struct vyrd_caller *caller = vyrd_caller(made(vyrd_header_own(specification)));
    vyrd_begin(caller);
    vyrd_note(caller, words);
}

static void note_of_two_lines(struct vyrd_log *log, struct vyrd_caller *caller) {
    (void)log, (void)caller;
    in_version_3("two\nlines");
}

static void long_note(struct vyrd_log *log, struct vyrd_caller *caller) {
    (void)log, (void)caller;
    in_version_3(many(199));
}

// Ends the process, and what it says is the sentence.
static void aborts(void (*body)(struct vyrd_log *, struct vyrd_caller *), const char *sentence) {
    FILE *said = tmpfile();
    fflush(stdout);
    pid_t child = fork();
    if (child == 0) {
        dup2(fileno(said), STDERR_FILENO);
        struct vyrd_log *log = vyrd_create(vyrd_header(1, "multiset", 1, 2), path, NULL);
        body(log, vyrd_caller(log));
        _exit(0);
    }
    int status = 0;
    waitpid(child, &status, 0);
    expect(WIFSIGNALED(status) && WTERMSIG(status) == SIGABRT, sentence);
    char text[256] = "";
    rewind(said);
    starts(fgets(text, sizeof text, said) ? text : "", sentence);
    fclose(said);
}

static void misuses(void) {
    aborts(inside, "vyrd_log: a step inside a step of the same thread\n");
    aborts(inside_another, "vyrd_log: a step inside a step of the same thread\n");
    aborts(outside, "vyrd_log: a line outside a step\n");
    aborts(helping_outside, "vyrd_log: a line outside a step\n");
    aborts(late, "vyrd_log: a step of a log that is finished\n");
    aborts(twice, "vyrd_log: a log is finished twice\n");
    aborts(note_of_version_1, "vyrd_log: notes are of version 3\n");
    aborts(note_outside, "vyrd_log: a line outside a step\n");
    aborts(note_of_two_lines, "vyrd_log: a note has one line\n");
    aborts(long_note, "vyrd_log: a line of a log has more than 200 bytes\n");
    aborts(large_argument, "vyrd_log: an argument is from 0 to 4294967295\n");
    aborts(large_value, "vyrd_log: a value is from 0 to 9223372036854775807\n");
    aborts(large_reply, "vyrd_log: a reply is from 0 to 18446744073709551614\n");
    aborts(too_long, "vyrd_log: a line of a log has more than 64 bytes\n");
    char wanted[100] = "vyrd 1 multiset 1 2\n0 call ";
    memset(wanted + strlen(wanted), 'x', 66 - sizeof "0 call " - 1);
    strcat(wanted, "\n");
    expect(strcmp(written(), wanted) == 0, "the steps before a mistake are in the log");
}

static void failures(void) {
    struct vyrd_header header = vyrd_header(1, "multiset", 1, 1);
    expect(!vyrd_create(header, "no/such/folder/log", NULL), "no such folder");
    starts(vyrd_why(), "can't open no/such/folder/log: ");
    struct vyrd_log *full = vyrd_create(header, "/dev/full", NULL);
    expect(full && vyrd_finish(full) == -1, "a device that is full");
    starts(vyrd_why(), "the log can't be written: ");
    vyrd_close(full);
}

static struct vyrd_log *shared;

static void *observe(void *nothing) {
    struct vyrd_caller *caller = vyrd_caller(shared);
    vyrd_start_together(shared, 8);
    for (unsigned n = 0; n < 5000; n++) {
        vyrd_begin(caller);
        vyrd_observed(caller, 0, "read", 0);
        vyrd_end(caller);
    }
    vyrd_give_back(caller);
    return nothing;
}

static void with_threads(unsigned count, void *(*body)(void *)) {
    pthread_t all[8];
    for (unsigned n = 0; n < count; n++)
        pthread_create(&all[n], NULL, body, NULL);
    for (unsigned n = 0; n < count; n++)
        pthread_join(all[n], NULL);
}

// A buffer that is too small for two lines, threads that meet, and pauses by a seed.
static void threads(enum vyrd_order order) {
    struct vyrd_options options = {
        .order = order, .buffer = 8, .seeded = true, .seed = 3, .unwatched = true};
    shared = vyrd_create(vyrd_header(1, "cache", 1, 8), path, &options);
    with_threads(8, observe);
    vyrd_close(shared);
    const char *text = written(), *at = strchr(text, '\n') + 1;
    unsigned pairs = 0;
    for (; *at; pairs++) {
        char wanted[40];
        int size = snprintf(wanted, sizeof wanted, "%c call read 0\n%c return 0\n", *at, *at);
        if (strncmp(at, wanted, (size_t)size) != 0) break;
        at += size;
    }
    expect(pairs == 40000 && !*at, "the lines of a step stand together");
}

static pthread_mutex_t order = PTHREAD_MUTEX_INITIALIZER; // guards the one below
static struct vyrd_text wanted_lines;

static void *write_under_a_lock(void *nothing) {
    struct vyrd_caller *caller = vyrd_caller(shared);
    for (unsigned m = 0; m < 3000; m++) {
        char line[40];
        int size = snprintf(line, sizeof line, "%u write 0 %u\n", vyrd_number(caller), m);
        pthread_mutex_lock(&order);
        vyrd_begin(caller);
        vyrd_write(caller, 0, m);
        vyrd_end(caller);
        vyrd_add(&wanted_lines, line, (size_t)size);
        pthread_mutex_unlock(&order);
    }
    return nothing;
}

// A lock of the program gives the order; each caller's number stands in its lines.
static void numbers(void) {
    struct vyrd_options options = {.order = VYRD_NUMBERS};
    shared = vyrd_create(vyrd_header(1, "cache", 1, 4), path, &options);
    with_threads(4, write_under_a_lock);
    expect(vyrd_finish(shared) == 0, "a log in the order of numbers");
    vyrd_close(shared);
    vyrd_add(&wanted_lines, "end\n", 5);
    const char *text = written();
    starts(text, "vyrd 1 cache 1 4\n");
    expect(strcmp(strchr(text, '\n') + 1, wanted_lines.bytes) == 0, "the order of the lock");
    free(wanted_lines.bytes);
}

int main(void) {
    each_line();
    headers();
    own_headers();
    own_lines();
    handles();
    handles_that_are_given_back_inside_a_call();
    misuses();
    failures();
    threads(VYRD_LOCK);
    threads(VYRD_NUMBERS);
    numbers();
    return failed == 0 ? 0 : 1;
}
