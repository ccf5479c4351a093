// A stack of linked nodes without a lock, as a library has it: it knows of no log. Its atomics are
// a parameter, so that a test can put its own in.
#pragma once

#include <cstdint>
#include <deque>

// Whether each change of the head gives it another tag. Without one a head that is the same again
// is taken for one that hasn't changed (ABA).
enum class Tags { each_change, none };

template <template <class> class Atomic>
class Stack {
public:
    struct Node {
        Atomic<std::uint64_t> next{0};
        unsigned value = 0;
    };

    // Nodes have the numbers from 1 to `nodes`; 0 is none.
    Stack(unsigned nodes, Tags tags) : tags_(tags), nodes_(nodes + 1) {}

    Node &node(unsigned number) { return nodes_[number]; }
    Atomic<std::uint64_t> &head() { return head_; }

    static unsigned number_in(std::uint64_t link) { return static_cast<unsigned>(link); }

    // The node is the caller's own, and in the stack from then on.
    void push(unsigned number) {
        std::uint64_t head = head_.load();
        do
            nodes_[number].next.store(number_in(head));
        while (!head_.compare_exchange_strong(head, changed(head, number)));
    }

    // The node that was the first one, which is the caller's own from then on, or 0.
    // `between` comes after its looks and before its change, and is told which node is the first.
    template <class Between>
    unsigned pop(Between &&between) {
        std::uint64_t head = head_.load();
        while (number_in(head) != 0) {
            std::uint64_t next = nodes_[number_in(head)].next.load();
            between(number_in(head));
            if (head_.compare_exchange_strong(head, changed(head, number_in(next)))) break;
        }
        return number_in(head);
    }

private:
    std::uint64_t changed(std::uint64_t head, unsigned number) const {
        std::uint64_t tag = tags_ == Tags::none ? 0 : (head >> 32) + 1;
        return tag << 32 | number;
    }

    Tags tags_;
    Atomic<std::uint64_t> head_{0};
    std::deque<Node> nodes_; // they don't move
};
