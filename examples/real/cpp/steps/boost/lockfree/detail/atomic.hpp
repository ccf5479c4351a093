// Stands in for Boost's header of this name, since its folder comes before Boost's. All of
// boost::lockfree takes its atomics from here, and is otherwise as it was installed.
//
// A compare-and-set that links a node or takes one out decides its operation: it and its `commit`
// are one step of the log. All other accesses are those of std::atomic, at any time.
#ifndef BOOST_LOCKFREE_DETAIL_ATOMIC_HPP
#define BOOST_LOCKFREE_DETAIL_ATOMIC_HPP

#include "vyrd_log.hpp"

#include <atomic>

namespace steps {

/// What the thread is doing, from an operation's call to its return.
struct Operation {
    vyrd::Caller &caller;
    bool committed = false;
};

inline thread_local Operation *doing = nullptr;

template <class Change>
bool decides(Change change) {
    if (!doing || doing->committed) return change();
    return doing->caller.step([&](vyrd::Lines &lines) {
        bool done = change();
        if (done) lines.commit();
        doing->committed = done;
        return done;
    });
}

/// Whether a pointer with a tag is one to a node of a queue or of a stack, which has an element.
/// The free list has such pointers too, to nodes that have none.
template <class Pointer, class = void>
struct has_element : std::false_type {};
template <class Pointer>
struct has_element<Pointer, std::void_t<decltype(std::declval<Pointer &>()->data)>>
    : std::true_type {};
template <class Pointer>
struct has_element<Pointer, std::void_t<decltype(std::declval<Pointer &>()->v)>> : std::true_type {
};

} // namespace steps

namespace boost::lockfree {
namespace detail {

template <class Value>
class atomic {
public:
    atomic() = default;
    explicit atomic(Value value) : real_(value) {}

    Value load(std::memory_order order = std::memory_order_seq_cst) const {
        return real_.load(order);
    }

    void store(Value value, std::memory_order order = std::memory_order_seq_cst) {
        real_.store(value, order);
    }

    // Boost's queue and stack decide by the weak one alone. The queue helps others with the strong
    // one.
    bool compare_exchange_weak(Value &expected, Value wanted) {
        auto change = [&] { return real_.compare_exchange_weak(expected, wanted); };
        if constexpr (steps::has_element<Value>::value)
            return steps::decides(change);
        else
            return change();
    }

    bool compare_exchange_strong(Value &expected, Value wanted) {
        return real_.compare_exchange_strong(expected, wanted);
    }

    bool is_lock_free() const { return real_.is_lock_free(); }

private:
    std::atomic<Value> real_;
};

using std::memory_order_acquire;
using std::memory_order_consume;
using std::memory_order_relaxed;
using std::memory_order_release;

} // namespace detail
using detail::atomic;
using detail::memory_order_acquire;
using detail::memory_order_consume;
using detail::memory_order_relaxed;
using detail::memory_order_release;
} // namespace boost::lockfree

#endif
