// A library's stack of linked nodes, whose log is judged though the library knows of none: its
// atomics are replaced by some that log what they change.
//
//     stack correct [SEED [OPERATIONS]]   each change of the head gives it another tag
//     stack broken                        none does: a pop takes a head that is the same again for
//                                         one that hasn't changed, and what it links isn't there
//     stack racing [SEED [OPERATIONS]]    the same mistake, by threads that meet or don't
//
// It is logged as a tree that has a leaf for each node, with the node's number as the key and the
// real links as the right words. Leaf 0 stands for the head, and has no entry.
#include "../vyrd_log.hpp"

#include "stack.hpp"

#include <functional>
#include <future>
#include <iostream>
#include <random>

constexpr unsigned THREADS = 4;
constexpr unsigned OWN = 2; // nodes that each thread begins with
constexpr unsigned NODES = THREADS * OWN;
constexpr unsigned LEAF = 12; // words of a leaf, and where those that are used stand among them
constexpr unsigned COUNT = 1, RIGHT = 3, KEY = 4, VALUE = 8;

// What a thread is doing: its caller, and the lines that stand before and after that of the change
// of the head by which it takes effect.
struct Doing {
    vyrd::Caller *caller;
    std::function<void(vyrd::Lines &)> before, after;
};

static thread_local Doing *doing = nullptr;

// An atomic whose changes are steps.
template <class T>
class Logged {
public:
    explicit Logged(T value) : real_(value) {}

    void is_word(unsigned word) { word_ = word; }

    T load() const { return real_.load(); }

    void store(T value) {
        doing->caller->step([&](vyrd::Lines &lines) {
            real_.store(value);
            lines.write(word_, std::uint32_t(value));
        });
    }

    bool compare_exchange_strong(T &expected, T wanted) {
        return doing->caller->step([&](vyrd::Lines &lines) {
            bool done = real_.compare_exchange_strong(expected, wanted);
            if (done) {
                doing->before(lines);
                lines.write(word_, std::uint32_t(wanted)); // without its tag
                doing->after(lines);
            }
            return done;
        });
    }

private:
    std::atomic<T> real_;
    unsigned word_ = 0;
};

using LoggedStack = Stack<Logged>;

class Player {
public:
    Player(LoggedStack &stack, vyrd::Caller &caller) : stack_(stack), caller_(caller) {
        for (unsigned n = 1; n <= OWN; n++)
            free_.push_back(OWN * caller.number() + n);
    }

    void push(unsigned x) {
        if (free_.empty()) return;
        unsigned node = free_.front();
        free_.pop_front();
        caller_.call("insert", node, x);
        caller_.step([&](vyrd::Lines &lines) {
            stack_.node(node).value = x;
            lines.write(LEAF * node + VALUE, x);
        });
        Doing push{&caller_, [](vyrd::Lines &) {},
                   [](vyrd::Lines &lines) {
                       lines.commit();
                       lines.returns(true);
                   }};
        doing = &push;
        stack_.push(node);
    }

    // Which node it is, and what is in it, is known where the head has changed: all of the call's
    // lines stand there.
    void pop(const std::function<void()> &between) {
        unsigned top = 0;
        Doing pop{&caller_,
                  [&](vyrd::Lines &lines) {
                      lines.observed(stack_.node(top).value + 1, "lookup", top);
                      lines.call("delete", top);
                  },
                  [](vyrd::Lines &lines) {
                      lines.commit();
                      lines.returns(true);
                  }};
        doing = &pop;
        unsigned taken = stack_.pop([&](unsigned number) {
            top = number;
            between();
        });
        if (taken != 0) free_.push_back(taken);
    }

    void play(unsigned seed, unsigned operations) {
        std::mt19937_64 draw(64 * seed + caller_.number());
        for (unsigned n = 0; n < operations; n++) {
            if (draw() % 2 == 0)
                push(unsigned(draw() % 1000));
            else
                pop([] {});
        }
    }

private:
    LoggedStack &stack_;
    vyrd::Caller &caller_;
    std::deque<unsigned> free_; // nodes of this thread's own
};

static void name_words(LoggedStack &stack) {
    stack.head().is_word(RIGHT);
    for (unsigned n = 1; n <= NODES; n++)
        stack.node(n).next.is_word(LEAF * n + RIGHT);
}

// Each node is a leaf with its number as the key. None is in the stack.
static vyrd::Header header() {
    vyrd::Header header(2, "tree", NODES + 1, THREADS);
    for (unsigned n = 1; n <= NODES; n++)
        header.start(LEAF * n + COUNT, 1).start(LEAF * n + KEY, n);
    return header;
}

static void together(vyrd::Log &log, Tags tags, unsigned seed, unsigned operations) {
    LoggedStack stack(NODES, tags);
    name_words(stack);
    std::vector<std::thread> threads;
    for (unsigned n = 0; n < THREADS; n++)
        threads.emplace_back([&] {
            vyrd::Caller caller = log.caller();
            log.start_together(THREADS);
            Player(stack, caller).play(seed, operations);
        });
    for (std::thread &thread : threads)
        thread.join();
}

// Caller 0 has found a first and a second node. Before it takes the first, caller 1 takes both, and
// puts the first back.
static void interrupted(vyrd::Log &log) {
    LoggedStack stack(NODES, Tags::none);
    name_words(stack);
    vyrd::Caller first = log.caller(), second = log.caller();
    Player one(stack, first), other(stack, second);
    other.push(10);
    other.push(20);
    one.pop([&] {
        std::async(std::launch::async, [&] {
            other.pop([] {});
            other.pop([] {});
            other.push(30);
        }).wait();
    });
}

int main(int count, char **words) {
    std::string word = count >= 2 ? words[1] : "";
    if (word != "correct" && word != "broken" && word != "racing") {
        std::cerr << "usage: stack correct | broken | racing [SEED [OPERATIONS]]\n";
        return 64;
    }
    unsigned seed = count >= 3 ? unsigned(std::stoul(words[2])) : 7;
    unsigned operations = count >= 4 ? unsigned(std::stoul(words[3])) : 500;
    vyrd::Log log(header(), STDOUT_FILENO);
    if (word == "broken")
        interrupted(log);
    else
        together(log, word == "racing" ? Tags::none : Tags::each_change, seed, operations);
    log.finish();
}
