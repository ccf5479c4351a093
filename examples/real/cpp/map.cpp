// tbb::concurrent_hash_map, whose log is written under its accessors: an accessor holds the
// library's lock on one element, so a number that is drawn under it says where the operation took
// effect.
//
//     map correct SPECIFICATION [SEED [OPERATIONS]]        one accessor for each operation
//     map get_then_put SPECIFICATION [SEED [OPERATIONS]]   put_if_absent looks, and then puts
//     map forgetful SPECIFICATION [SEED [OPERATIONS]]      remove looks for the old value, and then
//                                                          erases whatever is there
#include "play.hpp"

#include <tbb/concurrent_hash_map.h>

class Map {
public:
    explicit Map(const std::string &fault)
        : get_then_put_(fault == "get_then_put"), forgetful_(fault == "forgetful") {}

    unsigned get(unsigned k) {
        Library::const_accessor at;
        return map_.find(at, k) ? at->second + 1 : 0;
    }

    unsigned put(vyrd::Caller &caller, unsigned k, unsigned v) {
        Library::accessor at;
        unsigned old = map_.insert(at, k) ? 0 : at->second + 1;
        at->second = v;
        caller.commit();
        return old;
    }

    unsigned put_if_absent(vyrd::Caller &caller, unsigned k, unsigned v) {
        if (get_then_put_) {
            if (unsigned old = get(k)) return old;
            std::this_thread::yield();
            put(caller, k, v);
            return 0;
        }
        Library::accessor at;
        if (!map_.insert(at, {k, v})) return at->second + 1; // nothing changes, so nothing commits
        caller.commit();
        return 0;
    }

    unsigned replace(vyrd::Caller &caller, unsigned k, unsigned v) {
        Library::accessor at;
        if (!map_.find(at, k)) return 0;
        unsigned old = at->second + 1;
        at->second = v;
        caller.commit();
        return old;
    }

    bool compare_and_set(vyrd::Caller &caller, unsigned k, unsigned old, unsigned v) {
        Library::accessor at;
        if (!map_.find(at, k) || at->second != old) return false;
        at->second = v;
        caller.commit();
        return true;
    }

    unsigned remove(vyrd::Caller &caller, unsigned k) {
        unsigned seen = forgetful_ ? get(k) : 0;
        if (forgetful_) std::this_thread::yield();
        Library::accessor at;
        if (!map_.find(at, k)) return 0;
        unsigned old = forgetful_ ? seen : at->second + 1;
        caller.commit(); // erasing gives the accessor back, so its line stands before
        map_.erase(at);
        return old;
    }

private:
    using Library = tbb::concurrent_hash_map<unsigned, unsigned>;

    bool get_then_put_, forgetful_;
    Library map_;
};

// An operation from its call to its return, each with a step of its own.
template <class Action, class... Numbers>
static void called(vyrd::Caller &caller, Action action, const char *method, Numbers... arguments) {
    caller.call(method, arguments...);
    caller.returns(action());
}

int main(int count, char **arguments) {
    Words words(count, arguments, {"correct", "get_then_put", "forgetful"});
    Map map(words.fault);
    play(words, vyrd::Order::numbers, [&](vyrd::Caller &caller, std::minstd_rand &random) {
        unsigned k = random() % 4, v = random() % 8, w = random() % 8;
        auto get = [&] { return map.get(k); };
        auto put = [&] { return map.put(caller, k, v); };
        auto put_if_absent = [&] { return map.put_if_absent(caller, k, v); };
        auto replace = [&] { return map.replace(caller, k, v); };
        auto compare_and_set = [&] { return map.compare_and_set(caller, k, v, w); };
        auto remove = [&] { return map.remove(caller, k); };
        switch (random() % 6) {
        case 0:
            return called(caller, get, "get", k);
        case 1:
            return called(caller, put, "put", k, v);
        case 2:
            return called(caller, put_if_absent, "put_if_absent", k, v);
        case 3:
            return called(caller, replace, "replace", k, v);
        case 4:
            return called(caller, compare_and_set, "compare_and_set", k, v, w);
        default:
            return called(caller, remove, "remove", k);
        }
    });
}
