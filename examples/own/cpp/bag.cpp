// A bag of numbers in an array of slots, logged as a multiset.
//
//     bag correct     four threads insert, delete and look up at random; prints the log of that run
//     bag broken      a delete takes no lock, and is held between its look and its swap; prints the log of that run
//
// A slot is free (0), reserved (1) or valid (2). An insert reserves a free slot by compare-and-swap. The lock is for what
// has to see the slots as one: making a slot valid, a delete, a lookup.
#include "vyrd_log.hpp"

#include <array>
#include <atomic>
#include <functional>
#include <future>
#include <iostream>
#include <mutex>
#include <random>
#include <string>
#include <thread>
#include <vector>

constexpr unsigned SIZE = 2;         // buckets of four slots
constexpr unsigned SLOTS = 4 * SIZE; // elements at one time

struct Slot {
    std::atomic<unsigned> state{0};
    std::atomic<unsigned> value{0};
};

class Bag {
public:
    Bag(VyrdLog &log, bool locks_in_delete, std::function<void()> between)
        : log(log), locks_in_delete(locks_in_delete), between(std::move(between)) {}

    bool insert(unsigned caller, unsigned x) {
        log.call(caller, "insert " + std::to_string(x));
        for (unsigned i = 0; i < SLOTS; i++) {
            if (!swap_state(caller, i, 0, 1, false)) continue;
            log.step(caller, [&](VyrdLog::Lines &lines) {
                slots[i].value = x;
                lines.write(2 * i + 1, x);
            });
            {
                std::lock_guard<std::mutex> held(whole);
                swap_state(caller, i, 1, 2, true);
            }
            return replies(caller, true);
        }
        log.step(caller, [](VyrdLog::Lines &lines) { lines.commit(); }); // full: a multiset allows reply 0 anywhere
        return replies(caller, false);
    }

    bool erase(unsigned caller, unsigned x) {
        log.call(caller, "delete " + std::to_string(x));
        std::unique_lock<std::mutex> held(whole, std::defer_lock);
        if (locks_in_delete) held.lock();
        for (unsigned i = 0; i < SLOTS; i++) {
            if (!shows(i, x)) continue;
            between();
            if (!swap_state(caller, i, 2, 0, true)) continue;
            if (held) held.unlock();
            return replies(caller, true);
        }
        log.step(caller, [](VyrdLog::Lines &lines) { lines.commit(); }); // under the lock, so x is absent here
        if (held) held.unlock();
        return replies(caller, false);
    }

    bool lookup(unsigned caller, unsigned x) {
        log.call(caller, "lookup " + std::to_string(x));
        bool found = false;
        {
            std::lock_guard<std::mutex> held(whole);
            for (unsigned i = 0; i < SLOTS && !found; i++) found = shows(i, x);
        }
        return replies(caller, found);
    }

private:
    bool shows(unsigned i, unsigned x) const { return slots[i].state == 2 && slots[i].value == x; }

    // Compare-and-swap, logged where it succeeds: the write and the commit that makes the method take effect.
    bool swap_state(unsigned caller, unsigned i, unsigned from, unsigned to, bool commits) {
        return log.step(caller, [&](VyrdLog::Lines &lines) {
            if (!slots[i].state.compare_exchange_strong(from, to)) return false;
            lines.write(2 * i, to);
            if (commits) lines.commit();
            return true;
        });
    }

    bool replies(unsigned caller, bool reply) {
        log.returns(caller, reply);
        return reply;
    }

    VyrdLog &log;
    bool locks_in_delete;
    std::function<void()> between; // what happens between a delete's look and its swap
    std::mutex whole;
    std::array<Slot, SLOTS> slots;
};

void run_correct() {
    constexpr unsigned CALLERS = 4, OPERATIONS = 200, VALUES = 4;
    VyrdLog log("multiset", SIZE, CALLERS);
    Bag bag(log, true, [] {});
    std::vector<std::thread> threads;
    for (unsigned caller = 0; caller < CALLERS; caller++)
        threads.emplace_back([&bag, caller] {
            std::mt19937 draw(caller);
            for (unsigned n = 0; n < OPERATIONS; n++) {
                unsigned x = draw() % VALUES;
                switch (draw() % 4) {
                case 0: bag.erase(caller, x); break;
                case 1: bag.lookup(caller, x); break;
                default: bag.insert(caller, x);
                }
            }
        });
    for (std::thread &thread : threads) thread.join();
    log.print(std::cout);
}

// Caller 1 finds the 5 in slot 0. Before it swaps the slot's state, caller 0 deletes that 5 and inserts a 6, which gets
// the same slot. The state is 2 again, so the swap succeeds, and takes out the 6.
void run_broken() {
    VyrdLog log("multiset", SIZE, 2);
    std::promise<void> looked, refilled;
    std::thread::id deleter;
    Bag bag(log, false, [&] {
        if (std::this_thread::get_id() != deleter) return;
        looked.set_value();
        refilled.get_future().wait();
    });
    bag.insert(0, 5);
    std::promise<void> known;
    std::thread other([&] {
        known.get_future().wait();
        bag.erase(1, 5);
    });
    deleter = other.get_id();
    known.set_value();
    looked.get_future().wait();
    bag.erase(0, 5);
    bag.insert(0, 6);
    refilled.set_value();
    other.join();
    log.print(std::cout);
}

int main(int count, char **words) {
    std::string word = count == 2 ? words[1] : "";
    if (word == "correct") run_correct();
    else if (word == "broken") run_broken();
    else {
        std::cerr << "usage: bag correct | broken\n";
        return 2;
    }
}
