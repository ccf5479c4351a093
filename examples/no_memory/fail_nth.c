/* Lets the n-th call of malloc or realloc fail, and all others pass: n is in FAIL_NTH, and 0 lets all pass. At the program's end the
   count of calls goes to the file that FAIL_COUNT names. Calls before the program's own start aren't counted. */
#define _GNU_SOURCE
#include <dlfcn.h>
#include <fcntl.h>
#include <stdatomic.h>
#include <stdio.h>
#include <stdlib.h>
#include <unistd.h>

static atomic_long calls;
static long failing;
static atomic_int begun;
static void *(*real_malloc)(size_t);
static void *(*real_realloc)(void *, size_t);

__attribute__((constructor)) static void begin(void) {
    const char *said = getenv("FAIL_NTH");
    real_malloc = dlsym(RTLD_NEXT, "malloc");
    real_realloc = dlsym(RTLD_NEXT, "realloc");
    failing = said ? atol(said) : 0;
    begun = 1;
}

static int refuses(void) {
    return begun && atomic_fetch_add(&calls, 1) + 1 == failing;
}

static void tell(void) {
    const char *path = getenv("FAIL_COUNT");
    char text[32];
    int file, length;
    if (!path || (file = open(path, O_WRONLY | O_CREAT | O_TRUNC, 0600)) < 0)
        return;
    length = snprintf(text, sizeof text, "%ld\n", (long)calls);
    if (write(file, text, length) != length)
        _exit(99);
    close(file);
}

void *malloc(size_t size) {
    if (!real_malloc)
        real_malloc = dlsym(RTLD_NEXT, "malloc");
    return refuses() ? NULL : real_malloc(size);
}

void *realloc(void *old, size_t size) {
    if (!real_realloc)
        real_realloc = dlsym(RTLD_NEXT, "realloc");
    return refuses() ? NULL : real_realloc(old, size);
}

void _exit(int status) {
    static void (*real_exit)(int);
    tell();
    real_exit = (void (*)(int))dlsym(RTLD_NEXT, "_exit");
    real_exit(status);
    __builtin_unreachable();
}

__attribute__((destructor)) static void end(void) {
    tell();
}
