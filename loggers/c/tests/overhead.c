// What a step costs: nanoseconds of each step and its line, with the log and without it.
//
//     overhead THREADS STEPS
#define VYRD_LOG_IMPLEMENTATION
#include "../vyrd_log.h"

static atomic_ulong word; // a store to it is a change of the program
static unsigned steps;
static struct vyrd_log *written;

static void *plain(void *nothing) {
    for (unsigned m = 0; m < steps; m++)
        word = m;
    return nothing;
}

static void *logged(void *nothing) {
    struct vyrd_caller *caller = vyrd_caller(written);
    for (unsigned m = 0; m < steps; m++) {
        vyrd_begin(caller);
        word = m;
        vyrd_write(caller, 1, m);
        vyrd_end(caller);
    }
    vyrd_give_back(caller);
    return nothing;
}

static double now(void) {
    struct timespec time;
    clock_gettime(CLOCK_MONOTONIC, &time);
    return 1e9 * (double)time.tv_sec + (double)time.tv_nsec;
}

static double nanoseconds_of_a_step(unsigned threads, void *(*body)(void *)) {
    pthread_t all[64];
    double begin = now();
    for (unsigned n = 0; n < threads; n++)
        pthread_create(&all[n], NULL, body, NULL);
    for (unsigned n = 0; n < threads; n++)
        pthread_join(all[n], NULL);
    return (now() - begin) / ((double)threads * steps);
}

int main(int count, char **words) {
    unsigned threads = count == 3 ? (unsigned)strtoul(words[1], NULL, 10) : 0;
    if (threads < 1 || threads > 64) {
        fputs("usage: overhead THREADS STEPS\n", stderr);
        return 64;
    }
    steps = (unsigned)strtoul(words[2], NULL, 10);
    double without = nanoseconds_of_a_step(threads, plain);
    printf("C, %u threads: %.0f ns a step without the log", threads, without);
    for (enum vyrd_order order = VYRD_LOCK; order <= VYRD_NUMBERS; order++) {
        struct vyrd_options options = {.order = order};
        written = vyrd_create(vyrd_header(1, "multiset", 1, threads), "/dev/null", &options);
        double with = nanoseconds_of_a_step(threads, logged);
        printf(", %.0f ns with it by %s", with, order == VYRD_LOCK ? "its lock" : "numbers");
        vyrd_close(written);
    }
    putchar('\n');
    return 0;
}
