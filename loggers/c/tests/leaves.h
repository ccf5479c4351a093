// A tree of a log that has leaves alone, in a chain, with one entry each: where their words stand,
// and which aren't 0 at the start.

enum { LEAF_COUNT = 1, LEAF_BOUND = 2, LEAF_RIGHT = 3, LEAF_KEY = 4, LEAF_VALUE = 8 };

static uint32_t leaf_word(unsigned leaf, unsigned of) {
    return 12 * leaf + of;
}

// The words of leaves that are empty, at most two for each. How many they are.
static size_t leaves_start(struct vyrd_start *start, unsigned leaves) {
    size_t count = 0;
    for (unsigned next = 1; next < leaves; next++) {
        start[count++] = (struct vyrd_start){leaf_word(next - 1, LEAF_BOUND), next + 1};
        start[count++] = (struct vyrd_start){leaf_word(next - 1, LEAF_RIGHT), next};
    }
    start[count++] = (struct vyrd_start){12 * leaves + 1, leaves - 1};
    return count;
}
