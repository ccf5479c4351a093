// A multiset whose log is judged.
//
//     multiset correct     an insert finds its slot and fills it under the lock
//     multiset numbered    the same, with steps that are ordered by numbers
//     multiset broken      it looks for the slot before it takes the lock: two find the same one
//
// With the path of a specification after the word its log is of version 3, and begins with that.
#include "multiset.hpp"

#include <iostream>

static void run_correct(const vyrd::Header &header, vyrd::Order order) {
    vyrd::Options seeded;
    seeded.seed = 7;
    seeded.order = order;
    vyrd::Log log(header, STDOUT_FILENO, seeded);
    together(log, 4, 7);
    log.finish();
}

static void run_broken(const vyrd::Header &header) {
    vyrd::Log log(header, STDOUT_FILENO);
    interrupted(log);
    log.finish();
}

int main(int count, char **words) {
    std::string word = count == 2 || count == 3 ? words[1] : "";
    vyrd::Header header = count == 3 ? vyrd::Header::own_file(words[2])
                                     : vyrd::Header(1, "multiset", 1, word == "broken" ? 2 : 4);
    if (word == "correct") {
        run_correct(header, vyrd::Order::lock);
    } else if (word == "numbered") {
        run_correct(header, vyrd::Order::numbers);
    } else if (word == "broken") {
        run_broken(header);
    } else {
        std::cerr << "usage: multiset correct | numbered | broken [SPECIFICATION]\n";
        return 64;
    }
}
