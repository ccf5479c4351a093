// boost::lockfree::queue, whose log says where each element was linked and taken out.
//
//     queue correct SPECIFICATION [SEED [OPERATIONS]]    Boost's queue as it is
//     queue aside SPECIFICATION [SEED [OPERATIONS]]      an enqueue that meets another one puts its
//                                                        element on a stack aside, which a dequeue
//                                                        looks into first: a queue that is a stack
//                                                        where its callers meet
#include "play.hpp"

#include <boost/lockfree/queue.hpp>
#include <boost/lockfree/stack.hpp>

#include <optional>

class Queue {
public:
    explicit Queue(bool aside) : aside_(aside) {}

    void enqueue(vyrd::Caller &caller, unsigned x) {
        caller.step([&](vyrd::Lines &lines) { lines.here(), lines.call("enqueue", x); });
        steps::Operation operation{caller};
        steps::doing = &operation;
        push(x);
        steps::doing = nullptr;
        caller.returns(1);
    }

    void dequeue(vyrd::Caller &caller) {
        caller.step([](vyrd::Lines &lines) { lines.here(), lines.call("dequeue"); });
        steps::Operation operation{caller};
        steps::doing = &operation;
        unsigned x = 0;
        bool found = (aside_ && stack_.pop(x)) || queue_.pop(x);
        steps::doing = nullptr;
        caller.returns(found ? x + 1 : 0);
    }

private:
    void push(unsigned x) {
        if (aside_ && busy_.exchange(true)) {
            stack_.push(x);
        } else {
            queue_.push(x);
            busy_ = false;
        }
    }

    bool aside_;
    std::atomic<bool> busy_{false};
    boost::lockfree::queue<unsigned> queue_{16};
    boost::lockfree::stack<unsigned> stack_{16};
};

int main(int count, char **arguments) {
    Words words(count, arguments, {"correct", "aside"});
    Queue queue(words.fault == "aside");
    std::atomic<unsigned> next{1}; // each element is another one
    play(words, vyrd::Order::lock, [&](vyrd::Caller &caller, std::minstd_rand &random) {
        if (random() % 9 < 4)
            queue.enqueue(caller, next++);
        else
            queue.dequeue(caller);
    });
}
