// Many runs in a test: what is accepted, what isn't, and what is said then. The variable VYRD names
// the program, and VYRD_EXPLAIN what explains its answers.
#define VYRD_LOG_IMPLEMENTATION
#define VYRD_CHECK_IMPLEMENTATION
#include "../vyrd_check.h"

#include "multiset.h"

static int failed;

static void expect(bool holds, const char *what, const char *got) {
    if (holds) return;
    failed++;
    printf("failed: %s\ngot: %s\n", what, got);
}

static const char begun[] = "vyrd 1 multiset 1 4\n0 call insert 5\n";
static const char *const folder = "logs"; // the tests run in a folder of their own

// What the log of a seed has, until the next call; nothing if it isn't there.
static const char *log_of(unsigned seed) {
    static char text[1 << 20], path[40];
    snprintf(path, sizeof path, "%s/%u.log", folder, seed);
    FILE *file = fopen(path, "rb");
    size_t size = file ? fread(text, 1, sizeof text - 1, file) : 0;
    text[size] = '\0';
    if (file) fclose(file);
    return text;
}

static int correct(uint64_t seed, struct vyrd_log *log, void *data) {
    (void)data;
    multiset_together(log, 4, (unsigned)seed);
    return 0;
}

static int broken(uint64_t seed, struct vyrd_log *log, void *data) {
    if (seed != 3) return correct(seed, log, data);
    multiset_interrupted(log);
    return 0;
}

static int noted(uint64_t seed, struct vyrd_log *log, void *data) {
    FILE *file = fopen(data, "a");
    fprintf(file, "%u ", (unsigned)seed);
    fclose(file);
    return correct(seed, log, NULL);
}

// The message of runs that fail, until the next call.
static const char *message_of(const struct vyrd_check *check, vyrd_body *body, void *data,
                              int status) {
    static char *message;
    free(message);
    message = NULL;
    struct vyrd_header header = vyrd_header(1, "multiset", 1, 4);
    int got = vyrd_check_runs(header, check, body, data, &message);
    expect(got == status, "the status", message ? message : "no message");
    return message ? message : "";
}

static void starts(const char *got, const char *wanted) {
    expect(strncmp(got, wanted, strlen(wanted)) == 0, wanted, got);
}

static void a_correct_structure_passes(void) {
    struct vyrd_check check = {.seed = 5, .folder = folder};
    starts(message_of(&check, noted, "seeds", 0), "");
    char seeds[100] = "";
    FILE *file = fopen("seeds", "r");
    expect(file && fgets(seeds, sizeof seeds, file), "the seeds", "no file");
    fclose(file);
    expect(strcmp(seeds, "5 6 7 8 9 10 11 12 13 14 15 16 17 18 19 20 21 22 23 24 ") == 0,
           "the seeds", seeds);
    expect(rmdir(folder) == 0, "logs that are accepted are removed", "they aren't");
}

static void a_broken_one_fails_with_what_explain_says(void) {
    const char *said = message_of(&(struct vyrd_check){.folder = folder}, broken, NULL, 1);
    starts(said, "run 3 of 20, with seed 3: violation at line 10: view differs at key 6\n"
                 "The log is kept: logs/3.log\n\nviolation at line 10: view differs at key 6\n");
    const char *explained = "\n  line 8: caller 0, slot 0 value 6 -> 5; shown once -> not at all\n";
    expect(strstr(said, explained) != NULL, "what explains says", said);
    expect(strstr(log_of(3), "\n0 return 1\nend\n") != NULL, "the log that is kept", log_of(3));
}

static int no_line(uint64_t seed, struct vyrd_log *log, void *data) {
    (void)seed, (void)data;
    struct vyrd_caller *caller = vyrd_caller(log);
    vyrd_begin(caller);
    vyrd_end(caller);
    return 0;
}

static void a_run_that_logs_nothing_fails(void) {
    starts(message_of(&(struct vyrd_check){.folder = folder}, no_line, NULL, 1),
           "run 1 of 20, with seed 1: the run logged nothing; accepted: 0 entries, 0 commits, 0 "
           "observers\nThe log is kept: logs/1.log\n");
    expect(strcmp(log_of(1), "vyrd 1 multiset 1 4\nend\n") == 0,
           "a step without a line writes nothing", log_of(1));
}

static int begins(uint64_t seed, struct vyrd_log *log, void *data) {
    (void)seed;
    vyrd_call(vyrd_caller(log), "insert", 5);
    const char *then = data;
    if (strcmp(then, "abort") == 0) abort();
    while (strcmp(then, "hang") == 0)
        pause();
    return 3;
}

static void ends_otherwise(const char *then, unsigned milliseconds, const char *fault) {
    struct vyrd_check check = {.folder = folder, .milliseconds = milliseconds};
    char data[10], wanted[200];
    strcpy(data, then);
    snprintf(wanted, sizeof wanted, "run 1 of 20, with seed 1: %s; malformed at line 3: no end\n",
             fault);
    starts(message_of(&check, begins, data, 1), wanted);
    expect(strcmp(log_of(1), begun) == 0, "the lines before that", log_of(1));
}

static void a_program_that_is_not_there_or_gives_no_verdict(void) {
    struct vyrd_check check = {.folder = folder, .program = "/no/vyrd"};
    starts(message_of(&check, correct, NULL, 2),
           "the program that judges the logs can't be run: /no/vyrd");
    check.program = "false";
    check.explain = "/no/explain";
    const char *said = message_of(&check, correct, NULL, 1);
    expect(strstr(said, "false gave no verdict, ended with status 1, and said: \n"), "false", said);
    expect(strstr(said, "\nNothing explains it: there is no /no/explain"), "no explain", said);
    unsetenv("VYRD");
    starts(message_of(NULL, correct, NULL, 2), "no program judges the logs: the variable VYRD");
}

int main(void) {
    // A log of this process, so that there is a thread which the forked ones don't have.
    struct vyrd_log *own = vyrd_create(vyrd_header(1, "multiset", 1, 4), "own.log", NULL);
    a_correct_structure_passes();
    a_broken_one_fails_with_what_explain_says();
    a_run_that_logs_nothing_fails();
    ends_otherwise("return", 0, "the body's process ended with status 3");
    ends_otherwise("abort", 0, "the body's process was ended by signal 6");
    ends_otherwise("hang", 2000, "the body hasn't returned after 2000 milliseconds");
    a_program_that_is_not_there_or_gives_no_verdict();
    message_of(&(struct vyrd_check){.program = "/no/vyrd"}, correct, NULL, 2);
    vyrd_close(own);
    return failed == 0 ? 0 : 1;
}
