// A multiset in four slots, each with a value and a valid bit. Where `between` is given, an insert
// is broken: it looks for its slot without the lock, and calls that before it takes the lock.
#include <pthread.h>
#include <stdatomic.h>

enum { SLOTS = 4 };

struct multiset {
    void (*between)(unsigned caller);
    pthread_mutex_t lock;
    unsigned value[SLOTS];
    atomic_bool valid[SLOTS];
};

static void multiset_make(struct multiset *multiset, void (*between)(unsigned caller)) {
    *multiset = (struct multiset){.between = between};
    pthread_mutex_init(&multiset->lock, NULL);
}

static void multiset_fill(struct multiset *multiset, struct vyrd_caller *caller, unsigned i,
                          unsigned x) {
    vyrd_begin(caller);
    multiset->value[i] = x;
    vyrd_write(caller, 2 * i + 1, multiset->value[i]);
    vyrd_end(caller);
    vyrd_begin(caller);
    multiset->valid[i] = true;
    vyrd_write(caller, 2 * i, 2);
    vyrd_commit(caller);
    vyrd_end(caller);
}

static bool multiset_insert(struct multiset *multiset, struct vyrd_caller *caller, unsigned x) {
    vyrd_call(caller, "insert", x);
    if (!multiset->between) pthread_mutex_lock(&multiset->lock);
    unsigned i = 0;
    while (i < SLOTS && multiset->valid[i])
        i++;
    if (multiset->between) {
        multiset->between(vyrd_number(caller));
        pthread_mutex_lock(&multiset->lock);
    }
    if (i < SLOTS)
        multiset_fill(multiset, caller, i, x);
    else
        vyrd_commit(caller);
    pthread_mutex_unlock(&multiset->lock);
    vyrd_returns(caller, i < SLOTS);
    return i < SLOTS;
}

static unsigned multiset_find(const struct multiset *multiset, unsigned x) {
    unsigned i = 0;
    while (i < SLOTS && !(multiset->valid[i] && multiset->value[i] == x))
        i++;
    return i;
}

static bool multiset_delete(struct multiset *multiset, struct vyrd_caller *caller, unsigned x) {
    vyrd_call(caller, "delete", x);
    pthread_mutex_lock(&multiset->lock);
    unsigned i = multiset_find(multiset, x);
    vyrd_begin(caller);
    if (i < SLOTS) {
        multiset->valid[i] = false;
        vyrd_write(caller, 2 * i, 0);
    }
    vyrd_commit(caller);
    vyrd_end(caller);
    pthread_mutex_unlock(&multiset->lock);
    vyrd_returns(caller, i < SLOTS);
    return i < SLOTS;
}

static bool multiset_lookup(struct multiset *multiset, struct vyrd_caller *caller, unsigned x) {
    vyrd_call(caller, "lookup", x);
    pthread_mutex_lock(&multiset->lock);
    bool found = multiset_find(multiset, x) < SLOTS;
    pthread_mutex_unlock(&multiset->lock);
    vyrd_returns(caller, found);
    return found;
}

// Takes out any element. Which one is known only then, so all of the call's lines are there.
static bool multiset_take(struct multiset *multiset, struct vyrd_caller *caller, unsigned *taken) {
    pthread_mutex_lock(&multiset->lock);
    unsigned i = 0;
    while (i < SLOTS && !multiset->valid[i])
        i++;
    if (i < SLOTS) {
        vyrd_begin(caller);
        multiset->valid[i] = false;
        *taken = multiset->value[i];
        vyrd_observed(caller, true, "lookup", *taken);
        vyrd_call(caller, "delete", *taken);
        vyrd_write(caller, 2 * i, 0);
        vyrd_commit(caller);
        vyrd_returns(caller, true);
        vyrd_end(caller);
    }
    pthread_mutex_unlock(&multiset->lock);
    return i < SLOTS;
}

// Operations on few values, as the seed says.
static void multiset_play(struct multiset *multiset, struct vyrd_caller *caller, unsigned seed) {
    unsigned draw = seed * 64 + vyrd_number(caller) + 1, taken;
    for (unsigned n = 0; n < 500; n++) {
        draw ^= draw << 13;
        draw ^= draw >> 17;
        draw ^= draw << 5;
        unsigned x = draw / 8 % 3;
        switch (draw % 6) {
        case 0:
            multiset_delete(multiset, caller, x);
            break;
        case 1:
            multiset_lookup(multiset, caller, x);
            break;
        case 2:
            multiset_take(multiset, caller, &taken);
            break;
        default:
            multiset_insert(multiset, caller, x);
        }
    }
}

// A run: a log, and what its threads play with.
struct multiset_run {
    struct vyrd_log *log;
    struct multiset multiset;
    unsigned count, seed;
};

static void *multiset_thread(void *data) {
    struct multiset_run *run = data;
    struct vyrd_caller *caller = vyrd_caller(run->log);
    vyrd_start_together(run->log, run->count);
    multiset_play(&run->multiset, caller, run->seed);
    vyrd_give_back(caller);
    return NULL;
}

// The correct one: each of so many threads plays, and there are at most 16.
static void multiset_together(struct vyrd_log *log, unsigned count, unsigned seed) {
    struct multiset_run run = {.log = log, .count = count, .seed = seed};
    multiset_make(&run.multiset, NULL);
    pthread_t threads[16];
    for (unsigned n = 0; n < count; n++)
        pthread_create(&threads[n], NULL, multiset_thread, &run);
    for (unsigned n = 0; n < count; n++)
        pthread_join(threads[n], NULL);
}

static pthread_mutex_t multiset_lock = PTHREAD_MUTEX_INITIALIZER; // guards the two below
static bool multiset_looked, multiset_filled;
static pthread_cond_t multiset_changed = PTHREAD_COND_INITIALIZER;

static void multiset_tell(bool *what) {
    pthread_mutex_lock(&multiset_lock);
    *what = true;
    pthread_cond_broadcast(&multiset_changed);
    pthread_mutex_unlock(&multiset_lock);
}

static void multiset_wait_for(const bool *what) {
    pthread_mutex_lock(&multiset_lock);
    while (!*what)
        pthread_cond_wait(&multiset_changed, &multiset_lock);
    pthread_mutex_unlock(&multiset_lock);
}

static void multiset_between(unsigned caller) {
    if (caller != 0) return;
    multiset_tell(&multiset_looked);
    multiset_wait_for(&multiset_filled);
}

static struct multiset multiset_broken;

static void *multiset_insert_first(void *caller) {
    multiset_insert(&multiset_broken, caller, 5);
    return NULL;
}

// The broken one, once: caller 0 finds slot 0 free. Before it fills it, caller 1 does so, with its
// whole insert.
static void multiset_interrupted(struct vyrd_log *log) {
    multiset_make(&multiset_broken, multiset_between);
    struct vyrd_caller *first = vyrd_caller(log), *second = vyrd_caller(log);
    pthread_t other;
    pthread_create(&other, NULL, multiset_insert_first, first);
    multiset_wait_for(&multiset_looked);
    multiset_insert(&multiset_broken, second, 6);
    multiset_tell(&multiset_filled);
    pthread_join(other, NULL);
}
