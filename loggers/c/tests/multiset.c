// A multiset whose log is judged.
//
//     multiset correct     an insert finds its slot and fills it under the lock
//     multiset numbered    the same, with steps that are ordered by numbers
//     multiset broken      it looks for the slot before it takes the lock: two find the same one
//
// With the path of a specification after the word its log is of version 3, and begins with that.
#define VYRD_LOG_IMPLEMENTATION
#include "../vyrd_log.h"

#include "multiset.h"

int main(int count, char **words) {
    const char *word = count == 2 || count == 3 ? words[1] : "";
    bool broken = strcmp(word, "broken") == 0, numbered = strcmp(word, "numbered") == 0;
    if (!broken && !numbered && strcmp(word, "correct") != 0) {
        fputs("usage: multiset correct | numbered | broken [SPECIFICATION]\n", stderr);
        return 64;
    }
    struct vyrd_options options = {
        .order = numbered ? VYRD_NUMBERS : VYRD_LOCK, .seeded = true, .seed = 7};
    struct vyrd_header header =
        count == 3 ? vyrd_header_own_file(words[2]) : vyrd_header(1, "multiset", 1, broken ? 2 : 4);
    struct vyrd_log *log = vyrd_to(header, STDOUT_FILENO, &options);
    if (broken)
        multiset_interrupted(log);
    else
        multiset_together(log, 4, 7);
    int status = vyrd_finish(log);
    vyrd_close(log);
    return status == 0 ? 0 : 1;
}
