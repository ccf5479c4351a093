// A program that ends in the way that its first word says, with a log in the file of its second.
//
//     life finish | leave | exit | misuse | abort | fault | fault_in_step | terminate | handled |
//     fork | hang FILE
#define VYRD_LOG_IMPLEMENTATION
#include "../vyrd_log.h"

#include <sys/wait.h>

static void handle(int number) {
    (void)number;
    _exit(7);
}

static void insert(struct vyrd_caller *caller) {
    vyrd_call(caller, "insert", 5);
    vyrd_begin(caller);
    vyrd_write(caller, 1, 5);
    vyrd_end(caller);
    vyrd_begin(caller);
    vyrd_write(caller, 0, 2);
    vyrd_commit(caller);
    vyrd_end(caller);
    vyrd_returns(caller, true);
}

static void end_so(const char *way, struct vyrd_log *log, struct vyrd_caller *caller) {
    volatile int *volatile nowhere = NULL;
    if (strcmp(way, "finish") == 0) {
        vyrd_returns(caller, true);
        vyrd_finish(log);
    } else if (strcmp(way, "exit") == 0) {
        exit(3);
    } else if (strcmp(way, "misuse") == 0) {
        vyrd_write(caller, 0, 2); // outside a step
    } else if (strcmp(way, "abort") == 0) {
        abort();
    } else if (strcmp(way, "fault") == 0) {
        *nowhere = 1;
    } else if (strcmp(way, "fault_in_step") == 0) {
        vyrd_begin(caller);
        *nowhere = 1;
    } else if (strcmp(way, "terminate") == 0 || strcmp(way, "handled") == 0) {
        kill(getpid(), SIGTERM);
        sleep(60);
    } else if (strcmp(way, "fork") == 0) {
        if (fork() == 0) exit(0); // what the copy keeps isn't its own
        wait(NULL);
    } else if (strcmp(way, "hang") == 0) {
        vyrd_begin(caller);
        sleep(60);
    }
}

int main(int count, char **words) {
    if (count != 3) {
        fputs("usage: life WAY FILE\n", stderr);
        return 64;
    }
    if (strcmp(words[1], "handled") == 0) signal(SIGTERM, handle); // before the log is opened
    struct vyrd_log *log = vyrd_create(vyrd_header(1, "multiset", 1, 2), words[2], NULL);
    struct vyrd_caller *first = vyrd_caller(log), *second = vyrd_caller(log);
    insert(first);
    vyrd_call(second, "lookup", 5);
    end_so(words[1], log, second);
    return 0;
}
