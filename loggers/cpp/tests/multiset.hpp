// A multiset in four slots, each with a value and a valid bit.
#pragma once

#include "../vyrd_log.hpp"

#include <array>
#include <functional>
#include <future>
#include <random>

constexpr unsigned SLOTS = 4;

class Multiset {
public:
    // With `between`, an insert looks without the lock, and calls it after that.
    explicit Multiset(std::function<void(unsigned)> between = nullptr) : between_(between) {}

    bool insert(vyrd::Caller &caller, unsigned x) {
        caller.call("insert", x);
        std::unique_lock<std::mutex> held(lock_, std::defer_lock);
        if (!between_) held.lock();
        unsigned i = 0;
        while (i < SLOTS && valid_[i])
            i++;
        if (between_) {
            between_(caller.number());
            held.lock();
        }
        bool room = i < SLOTS;
        if (room) {
            caller.step([&](vyrd::Lines &lines) {
                value_[i] = x;
                lines.write(2 * i + 1, x);
            });
            caller.step([&](vyrd::Lines &lines) {
                valid_[i] = true;
                lines.write(2 * i, 2);
                lines.commit();
            });
        } else {
            caller.commit();
        }
        held.unlock();
        caller.returns(room);
        return room;
    }

    bool erase(vyrd::Caller &caller, unsigned x) {
        caller.call("delete", x);
        std::unique_lock<std::mutex> held(lock_);
        unsigned i = find(x);
        bool found = i < SLOTS;
        caller.step([&](vyrd::Lines &lines) {
            if (found) {
                valid_[i] = false;
                lines.write(2 * i, 0);
            }
            lines.commit();
        });
        held.unlock();
        caller.returns(found);
        return found;
    }

    bool lookup(vyrd::Caller &caller, unsigned x) {
        caller.call("lookup", x);
        std::unique_lock<std::mutex> held(lock_);
        bool found = find(x) < SLOTS;
        held.unlock();
        caller.returns(found);
        return found;
    }

    // Takes out any element. Which one is known only then, so all of the call's lines are there.
    std::optional<unsigned> take(vyrd::Caller &caller) {
        std::lock_guard<std::mutex> held(lock_);
        unsigned i = 0;
        while (i < SLOTS && !valid_[i])
            i++;
        if (i == SLOTS) return std::nullopt;
        return caller.step([&](vyrd::Lines &lines) {
            valid_[i] = false;
            lines.observed(true, "lookup", value_[i]);
            lines.call("delete", value_[i]);
            lines.write(2 * i, 0);
            lines.commit();
            lines.returns(true);
            return std::optional<unsigned>(value_[i]);
        });
    }

private:
    unsigned find(unsigned x) const {
        unsigned i = 0;
        while (i < SLOTS && !(valid_[i] && value_[i] == x))
            i++;
        return i;
    }

    std::function<void(unsigned)> between_;
    std::mutex lock_;
    std::array<unsigned, SLOTS> value_{};
    std::array<std::atomic<bool>, SLOTS> valid_{};
};

// Operations on few values, as the seed and the caller's number give.
inline void play(Multiset &multiset, vyrd::Caller &caller, std::uint64_t seed) {
    std::mt19937_64 draw(64 * seed + caller.number());
    for (unsigned n = 0; n < 500; n++) {
        unsigned x = unsigned(draw() % 3);
        switch (draw() % 6) {
        case 0:
            multiset.erase(caller, x);
            break;
        case 1:
            multiset.lookup(caller, x);
            break;
        case 2:
            multiset.take(caller);
            break;
        default:
            multiset.insert(caller, x);
        }
    }
}

// The correct one: each of so many threads plays.
inline void together(vyrd::Log &log, unsigned count, std::uint64_t seed) {
    Multiset multiset;
    std::vector<std::thread> threads;
    for (unsigned n = 0; n < count; n++)
        threads.emplace_back([&] {
            vyrd::Caller caller = log.caller();
            log.start_together(count);
            play(multiset, caller, seed);
        });
    for (std::thread &thread : threads)
        thread.join();
}

// The broken one: caller 0 finds slot 0 free. Before it fills it, caller 1 does so, with its whole
// insert.
inline void interrupted(vyrd::Log &log) {
    std::promise<void> looked, filled;
    Multiset multiset([&](unsigned caller) {
        if (caller != 0) return;
        looked.set_value();
        filled.get_future().wait();
    });
    vyrd::Caller first = log.caller(), second = log.caller();
    std::thread other([&] { multiset.insert(first, 5); });
    looked.get_future().wait();
    multiset.insert(second, 6);
    filled.set_value();
    other.join();
}
