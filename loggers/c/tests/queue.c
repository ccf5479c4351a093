// A queue in a ring of two slots, whose log is judged: that elements come out in the order in which
// they went in, too.
//
//     queue correct [SEED [OPERATIONS]]   a pop finds the oldest slot and empties it under the lock
//     queue broken                        it finds it before it takes the lock: that slot has been
//                                         emptied and filled again, and a newer element comes out
//     queue racing [SEED [OPERATIONS]]    the same mistake, by threads that meet or don't
//
// It is logged as a tree that has a leaf for each slot. An element's key is its ticket: how many
// pushes took effect before it. A pop has to find the ticket that says how many pops did. The log
// counts both in its steps, since what the structure counts may be wrong.
#define VYRD_LOG_IMPLEMENTATION
#include "../vyrd_log.h"

#include "leaves.h"

enum { SLOTS = 2, THREADS = 4 };

struct queue {
    bool broken;
    void (*between)(unsigned caller); // what comes before a broken pop takes the lock, or NULL
    pthread_mutex_t lock;
    atomic_uint head; // where the next pop is, and the next push: slots in turn
    unsigned tail;
    unsigned value[SLOTS];
    bool full[SLOTS];
    unsigned pushed, popped; // of the log
};

static void queue_make(struct queue *queue, bool broken, void (*between)(unsigned caller)) {
    memset(queue, 0, sizeof *queue);
    queue->broken = broken;
    queue->between = between;
    pthread_mutex_init(&queue->lock, NULL);
}

static void queue_fill(struct queue *queue, struct vyrd_caller *caller, unsigned i, unsigned x) {
    vyrd_call(caller, "insert", queue->pushed, x);
    vyrd_begin(caller);
    queue->value[i] = x;
    vyrd_write(caller, leaf_word(i, LEAF_KEY), queue->pushed);
    vyrd_write(caller, leaf_word(i, LEAF_VALUE), queue->value[i]);
    vyrd_end(caller);
    vyrd_begin(caller);
    queue->full[i] = true;
    vyrd_write(caller, leaf_word(i, LEAF_COUNT), 1);
    vyrd_commit(caller);
    queue->pushed++;
    vyrd_end(caller);
    vyrd_returns(caller, true);
}

// Whether there was room. If there was none, as many are in the queue as it has slots: the ticket
// that was pushed so long ago is there, and its element is in the slot.
static bool queue_push(struct queue *queue, struct vyrd_caller *caller, unsigned x) {
    pthread_mutex_lock(&queue->lock);
    unsigned i = queue->tail % SLOTS;
    bool room = !queue->full[i];
    if (room) {
        queue_fill(queue, caller, i, x);
        queue->tail++;
    } else {
        vyrd_begin(caller);
        vyrd_observed(caller, queue->value[i] + 1, "lookup", queue->pushed - SLOTS);
        vyrd_end(caller);
    }
    pthread_mutex_unlock(&queue->lock);
    return room;
}

// Takes out what is in the slot. What that is stands in the step: a lookup that is judged there.
static unsigned queue_empty(struct queue *queue, struct vyrd_caller *caller, unsigned i) {
    vyrd_begin(caller);
    unsigned x = queue->value[i];
    queue->full[i] = false;
    vyrd_observed(caller, x + 1, "lookup", queue->popped);
    vyrd_call(caller, "delete", queue->popped);
    vyrd_write(caller, leaf_word(i, LEAF_COUNT), 0);
    vyrd_commit(caller);
    vyrd_returns(caller, true);
    queue->popped++;
    vyrd_end(caller);
    return x;
}

// Whether there was an element. If there was none, the next ticket isn't there.
static bool queue_pop(struct queue *queue, struct vyrd_caller *caller, unsigned *taken) {
    unsigned head = queue->head; // broken: it may be an old one
    if (queue->between) queue->between(vyrd_number(caller));
    pthread_mutex_lock(&queue->lock);
    if (!queue->broken) head = queue->head;
    bool found = queue->full[head % SLOTS];
    if (found) {
        *taken = queue_empty(queue, caller, head % SLOTS);
        queue->head = head + 1;
    } else {
        vyrd_begin(caller);
        vyrd_observed(caller, 0, "lookup", queue->popped);
        vyrd_end(caller);
    }
    pthread_mutex_unlock(&queue->lock);
    return found;
}

// A run: a log, and what its threads play with.
struct run {
    struct vyrd_log *log;
    struct queue queue;
    unsigned seed, operations;
};

static void *play(void *data) {
    struct run *run = data;
    struct vyrd_caller *caller = vyrd_caller(run->log);
    vyrd_start_together(run->log, THREADS);
    unsigned draw = run->seed * 64 + vyrd_number(caller) + 1, taken;
    for (unsigned n = 0; n < run->operations; n++) {
        draw ^= draw << 13;
        draw ^= draw >> 17;
        draw ^= draw << 5;
        if (draw / 8 % 2 == 0)
            queue_push(&run->queue, caller, draw / 16 % 1000);
        else
            queue_pop(&run->queue, caller, &taken);
    }
    vyrd_give_back(caller);
    return NULL;
}

static void together(struct run *run) {
    pthread_t threads[THREADS];
    for (unsigned n = 0; n < THREADS; n++)
        pthread_create(&threads[n], NULL, play, run);
    for (unsigned n = 0; n < THREADS; n++)
        pthread_join(threads[n], NULL);
}

static struct queue interrupted_queue;
static struct vyrd_caller *others;

// Caller 0 has found the oldest slot. Before it empties it, caller 1 does so, and fills it again.
static void *pop_and_push(void *unused) {
    unsigned taken;
    queue_pop(&interrupted_queue, others, &taken);
    queue_push(&interrupted_queue, others, 12);
    return unused;
}

static void between(unsigned caller) {
    if (caller != 0) return;
    pthread_t other;
    pthread_create(&other, NULL, pop_and_push, NULL);
    pthread_join(other, NULL);
}

static void interrupted(struct vyrd_log *log) {
    struct vyrd_caller *first = vyrd_caller(log);
    unsigned taken;
    others = vyrd_caller(log);
    queue_make(&interrupted_queue, true, between);
    queue_push(&interrupted_queue, first, 10);
    queue_push(&interrupted_queue, first, 11);
    queue_pop(&interrupted_queue, first, &taken);
}

int main(int count, char **words) {
    const char *word = count >= 2 ? words[1] : "";
    bool broken = strcmp(word, "broken") == 0, racing = strcmp(word, "racing") == 0;
    if (!broken && !racing && strcmp(word, "correct") != 0) {
        fputs("usage: queue correct | broken | racing [SEED [OPERATIONS]]\n", stderr);
        return 64;
    }
    struct run run = {.seed = count >= 3 ? (unsigned)atoi(words[2]) : 7,
                      .operations = count >= 4 ? (unsigned)atoi(words[3]) : 500};
    struct vyrd_start start[2 * SLOTS];
    size_t starts = leaves_start(start, SLOTS);
    struct vyrd_header header = vyrd_header_start("tree", SLOTS, THREADS, start, starts);
    run.log = vyrd_to(header, STDOUT_FILENO, NULL);
    if (!run.log) {
        fprintf(stderr, "%s\n", vyrd_why());
        return 1;
    }
    if (broken) {
        interrupted(run.log);
    } else {
        queue_make(&run.queue, racing, NULL);
        together(&run);
    }
    int status = vyrd_finish(run.log);
    vyrd_close(run.log);
    return status == 0 ? 0 : 1;
}
