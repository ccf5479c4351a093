// Runs a body many times in a test and lets `vyrd check` judge each log. One header, C11, POSIX, to
// copy with vyrd_log.h. It needs no test library.
//
//     #define VYRD_LOG_IMPLEMENTATION // both in one file of the program, before its other headers
//     #define VYRD_CHECK_IMPLEMENTATION
//     #include "vyrd_check.h"
//
//     static int body(uint64_t seed, struct vyrd_log *log, void *data) {
//         ... // makes the structure, and lets threads use it; each has a caller of the log
//         return 0;
//     }
//
//     int main(void) {
//         return vyrd_check_runs(vyrd_header(1, "multiset", 1, 4), NULL, body, NULL, NULL);
//     }
//
// Each run is a process of its own, a fork of this one. So a body that crashes, or that hangs, ends
// that process alone. What the body sets in variables is gone after it, and what a test library
// notes in it isn't seen: a body says by what it returns that it has found something wrong.
#ifndef VYRD_CHECK_H
#define VYRD_CHECK_H

#include "vyrd_log.h"

/// What vyrd_check_runs is asked for. All zeros is the default.
struct vyrd_check {
    /// How many runs there are; 0 stands for 20.
    unsigned runs;
    /// The first run's seed; 0 stands for 1. The next runs have the numbers after it.
    uint64_t seed;
    /// How long the body may take; 0 stands for 60,000.
    unsigned milliseconds;
    /// How the logs are written. Their seed is the run's.
    struct vyrd_options log;
    /// The folder of the logs. Without one it is a new one in that for temporary files.
    const char *folder;
    /// The program that judges. Without it the variable VYRD names it.
    const char *program;
    /// What says more of a log that isn't accepted. Without it the variable VYRD_EXPLAIN names it,
    /// or else it is `tools/explain` beside the program.
    const char *explain;
};

/// What a run does. It waits for the threads that it starts, and doesn't finish the log: that is
/// done when it has returned. It returns 0 if it has found nothing wrong itself.
typedef int vyrd_body(uint64_t seed, struct vyrd_log *log, void *data);

/// Calls the body in many runs, each with a seed and a log of its own, and lets the program judge
/// each log. A log that is accepted is removed. `check` may be NULL; `data` is what the body gets.
///
/// 0 if all logs are accepted. It is 1 at the first run whose log isn't accepted or has no entry,
/// whose body crashes or returns another number than 0, or whose body hasn't returned in time. The
/// log is then kept, and judged as it is. It is 2 if there is no program that judges, or no folder for the
/// logs. `message` is then what happened in which run, where the log is kept, and what explains it,
/// to be freed by the caller. If it is NULL, that is said on standard error.
int vyrd_check_runs(struct vyrd_header header, const struct vyrd_check *check, vyrd_body *body,
                    void *data, char **message);

#endif

#ifdef VYRD_CHECK_IMPLEMENTATION
#undef VYRD_CHECK_IMPLEMENTATION

#include <errno.h>
#include <fcntl.h>
#include <limits.h>
#include <signal.h>
#include <stdarg.h>
#include <stdio.h>
#include <stdlib.h>
#include <string.h>
#include <sys/stat.h>
#include <sys/wait.h>
#include <time.h>
#include <unistd.h>

enum { VYRD_GRACE_MS = 2000 }; // from SIGTERM to SIGKILL: the log is written by then
enum { VYRD_NO_FILE = 126, VYRD_NO_PROGRAM = 127 };
enum { VYRD_UNWRITTEN = 113 }; // the status of a run whose log can't be written

// Text as printf makes it, to be freed.
static char *vyrd_print(const char *format, ...) {
    char *text = NULL;
    size_t size = 0;
    FILE *file = open_memstream(&text, &size);
    va_list values;
    va_start(values, format);
    int count = file ? vfprintf(file, format, values) : -1;
    va_end(values);
    if (!file || fclose(file) != 0 || count < 0) {
        fputs("vyrd_check: no memory is left\n", stderr);
        abort();
    }
    return text;
}

static bool vyrd_is_program(const char *path) {
    struct stat about;
    return stat(path, &about) == 0 && S_ISREG(about.st_mode) && access(path, X_OK) == 0;
}

// A program as a shell finds it, to be freed, or NULL.
static char *vyrd_found(const char *named) {
    if (strchr(named, '/')) return vyrd_is_program(named) ? vyrd_print("%s", named) : NULL;
    const char *folders = getenv("PATH");
    while (folders) {
        int size = (int)strcspn(folders, ":");
        char *path = vyrd_print("%.*s/%s", size, folders, named);
        if (vyrd_is_program(path)) return path;
        free(path);
        folders = folders[size] == ':' ? folders + size + 1 : NULL;
    }
    return NULL;
}

// The one that is given, or that the variable names, or NULL.
static const char *vyrd_named(const char *given, const char *variable) {
    if (given) return given;
    const char *value = getenv(variable);
    return value && *value ? value : NULL;
}

// The tool `explain` of a program, to be freed.
static char *vyrd_beside(const char *program) {
    char *whole = realpath(program, NULL);
    const char *path = whole ? whole : program, *last = strrchr(path, '/');
    char *beside = vyrd_print("%.*stools/explain", last ? (int)(last - path + 1) : 0, path);
    free(whole);
    return beside;
}

// How a process ended, and what it said, which is to be freed.
struct vyrd_ending {
    int status; // as waitpid gives it
    bool in_time;
    char *said;
};

static double vyrd_now(void) {
    struct timespec time;
    clock_gettime(CLOCK_MONOTONIC, &time);
    return 1e3 * (double)time.tv_sec + 1e-6 * (double)time.tv_nsec;
}

// All that a file has, without the spaces and line feeds at its end, to be freed.
static char *vyrd_all_of(FILE *file) {
    long size = fseek(file, 0, SEEK_END) == 0 ? ftell(file) : 0;
    char *text = calloc(1, size > 0 ? (size_t)size + 1 : 1);
    rewind(file);
    size_t count = text && size > 0 ? fread(text, 1, (size_t)size, file) : 0;
    while (count > 0 && (text[count - 1] == '\n' || text[count - 1] == ' '))
        text[--count] = '\0';
    return text ? text : vyrd_print("%s", "");
}

// Waits for a process; after so many milliseconds, if they aren't 0, it is ended.
static struct vyrd_ending vyrd_waited(pid_t child, unsigned milliseconds) {
    struct vyrd_ending ending = {.in_time = true};
    double late = vyrd_now() + milliseconds;
    while (waitpid(child, &ending.status, WNOHANG) == 0) {
        double now = vyrd_now();
        if (milliseconds > 0 && now >= late) {
            kill(child, now >= late + VYRD_GRACE_MS ? SIGKILL : SIGTERM);
            ending.in_time = false;
        }
        nanosleep(&(struct timespec){.tv_nsec = 2000000}, NULL);
    }
    return ending;
}

// Runs a program with a file as its input. What it says is kept; `errors` is whether that is so for
// standard error too.
static struct vyrd_ending vyrd_run(char *const *words, const char *input, bool errors) {
    FILE *said = tmpfile();
    fflush(NULL);
    pid_t child = said ? fork() : -1;
    if (child < 0)
        return (struct vyrd_ending){.said = vyrd_print("no process: %s", strerror(errno))};
    if (child == 0) {
        int from = open(input, O_RDONLY);
        if (from < 0) _exit(VYRD_NO_FILE);
        dup2(from, STDIN_FILENO);
        dup2(fileno(said), STDOUT_FILENO);
        if (errors) dup2(fileno(said), STDERR_FILENO);
        execv(words[0], words);
        _exit(VYRD_NO_PROGRAM);
    }
    struct vyrd_ending ending = vyrd_waited(child, 0);
    ending.said = vyrd_all_of(said);
    fclose(said);
    return ending;
}

static char *vyrd_how(int status) {
    if (WIFSIGNALED(status)) return vyrd_print("was ended by signal %d", WTERMSIG(status));
    return vyrd_print("ended with status %d", WEXITSTATUS(status));
}

// The line of a verdict, or what there was in place of one, to be freed.
static char *vyrd_verdict(char *program, const char *log) {
    static const char *const starts[] = {"accepted: ", "violation at line ", "malformed at line "};
    char *words[] = {program, "check", NULL};
    struct vyrd_ending ending = vyrd_run(words, log, false);
    int status = WIFEXITED(ending.status) ? WEXITSTATUS(ending.status) : -1;
    if (status >= 0 && status < 3 &&
        strncmp(ending.said, starts[status], strlen(starts[status])) == 0)
        return ending.said;
    char *how = vyrd_how(ending.status);
    char *line = vyrd_print("%s gave no verdict, %s, and said: %s", program, how, ending.said);
    free(how);
    free(ending.said);
    return line;
}

// What explains the answer to a log, to be freed.
static char *vyrd_explanation(const char *program, char *explain, char *log) {
    if (!vyrd_is_program(explain))
        return vyrd_print("Nothing explains it: there is no %s", explain);
    char *variable = vyrd_print("VYRD=%s", program);
    char *words[] = {"/usr/bin/env", variable, explain, log, NULL};
    struct vyrd_ending ending = vyrd_run(words, log, true);
    free(variable);
    return ending.said;
}

// A run: the body in a process of its own.
struct vyrd_run_of {
    struct vyrd_header header;
    struct vyrd_options options;
    vyrd_body *body;
    void *data;
    const char *path;
};

static int vyrd_inside(const struct vyrd_run_of *run) {
    struct vyrd_log *log = vyrd_create(run->header, run->path, &run->options);
    int status = log ? run->body(run->options.seed, log, run->data) : VYRD_UNWRITTEN;
    if (log && status == 0 && vyrd_finish(log) != 0) status = VYRD_UNWRITTEN;
    if (status == VYRD_UNWRITTEN) fprintf(stderr, "vyrd_check: %s\n", vyrd_why());
    if (log) vyrd_flush(log);
    fflush(NULL);
    return status == 0 || (status & 0xff) != 0 ? status & 0xff : 1; // a status has eight bits
}

// Plays a run, and gives what went wrong, to be freed; nothing is an empty text.
static char *vyrd_play(const struct vyrd_run_of *run, unsigned milliseconds) {
    fflush(NULL);
    pid_t child = fork();
    if (child < 0) return vyrd_print("no process: %s; ", strerror(errno));
    if (child == 0) _exit(vyrd_inside(run));
    struct vyrd_ending ending = vyrd_waited(child, milliseconds);
    if (!ending.in_time)
        return vyrd_print("the body hasn't returned after %u milliseconds; ", milliseconds);
    if (WIFEXITED(ending.status) && WEXITSTATUS(ending.status) == 0) return vyrd_print("%s", "");
    char *how = vyrd_how(ending.status);
    char *fault = vyrd_print("the body's process %s; ", how);
    free(how);
    return fault;
}

// The folder of the logs, to be freed, or NULL.
static char *vyrd_log_folder(const char *folder) {
    const char *temporary = vyrd_named(NULL, "TMPDIR");
    char *made = folder ? vyrd_print("%s", folder)
                        : vyrd_print("%s/vyrd_XXXXXX", temporary ? temporary : "/tmp");
    if (folder ? mkdir(made, 0777) == 0 || errno == EEXIST : mkdtemp(made) != NULL) return made;
    free(made);
    return NULL;
}

// All runs: NULL if each log is accepted, and otherwise the message.
static char *vyrd_all_runs(struct vyrd_run_of run, struct vyrd_check check, const char *folder,
                           char *program, char *explain) {
    char *message = NULL;
    for (unsigned n = 0; n < check.runs && !message; n++) {
        run.options.seed = check.seed + n;
        char *path = vyrd_print("%s/%llu.log", folder, (unsigned long long)run.options.seed);
        run.path = path;
        char *fault = vyrd_play(&run, check.milliseconds), *verdict = vyrd_verdict(program, path);
        if (*fault == '\0' && strncmp(verdict, "accepted: 0 entries", 19) == 0) {
            free(fault);
            fault = vyrd_print("the run logged nothing; ");
        }
        if (*fault == '\0' && strncmp(verdict, "accepted: ", 10) == 0) {
            unlink(path);
        } else {
            char *explained = vyrd_explanation(program, explain, path);
            message = vyrd_print("run %u of %u, with seed %llu: %s%s\nThe log is kept: %s\n\n%s",
                                 n + 1, check.runs, (unsigned long long)run.options.seed, fault,
                                 verdict, path, explained);
            free(explained);
        }
        free(verdict);
        free(fault);
        free(path);
    }
    return message;
}

static int vyrd_tell(char *sentence, char **message, int status) {
    if (message) {
        *message = sentence;
    } else {
        fprintf(stderr, "%s\n", sentence);
        free(sentence);
    }
    return status;
}

int vyrd_check_runs(struct vyrd_header header, const struct vyrd_check *given, vyrd_body *body,
                    void *data, char **message) {
    struct vyrd_check check = given ? *given : (struct vyrd_check){0};
    if (check.runs == 0) check.runs = 20;
    if (check.seed == 0) check.seed = 1;
    if (check.milliseconds == 0) check.milliseconds = 60000;
    struct vyrd_run_of run = {header, check.log, body, data, NULL};
    run.options.seeded = true;
    const char *named = vyrd_named(check.program, "VYRD");
    const char *explaining = vyrd_named(check.explain, "VYRD_EXPLAIN");
    if (!named)
        return vyrd_tell(vyrd_print("no program judges the logs: the variable VYRD or the option "
                                    "program is to name it"),
                         message, 2);
    char *program = vyrd_found(named);
    if (!program)
        return vyrd_tell(vyrd_print("the program that judges the logs can't be run: %s", named),
                         message, 2);
    char *explain = explaining ? vyrd_print("%s", explaining) : vyrd_beside(program);
    char *folder = vyrd_log_folder(check.folder);
    char *failed = folder ? vyrd_all_runs(run, check, folder, program, explain)
                          : vyrd_print("no folder for the logs: %s", strerror(errno));
    int status = !failed ? 0 : folder ? 1 : 2;
    if (status == 0 && !check.folder) rmdir(folder);
    free(folder);
    free(explain);
    free(program);
    return status == 0 ? 0 : vyrd_tell(failed, message, status);
}

#endif
