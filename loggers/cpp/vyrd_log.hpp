// Writes the log of a concurrent program, which `vyrd check` judges. One header, C++17, POSIX.
//
//     vyrd::Log log(vyrd::Header(1, "multiset", 1, 2), "run.log");
//     vyrd::Caller caller = log.caller(); // one for each thread
//     caller.call("insert", 5);
//     caller.step([&](vyrd::Lines &lines) {
//         slot.value = 5; // what the program does, and the lines that tell of it, are one step
//         lines.write(1, 5);
//     });
//     ...
//     caller.returns(1);
//     log.finish();
//
// The steps of all callers take place one after the other, under one lock, so the lines stand in
// the order in which the program did what they tell of. Where the program has a lock round each
// change and each look, Order::numbers does without this one.
#pragma once

#include <algorithm>
#include <atomic>
#include <cerrno>
#include <charconv>
#include <chrono>
#include <condition_variable>
#include <csignal>
#include <cstdint>
#include <cstdio>
#include <cstdlib>
#include <cstring>
#include <memory>
#include <mutex>
#include <optional>
#include <stdexcept>
#include <string>
#include <string_view>
#include <thread>
#include <type_traits>
#include <utility>
#include <vector>

#include <fcntl.h>
#include <poll.h>
#include <pthread.h>
#include <sys/types.h>
#include <unistd.h>

namespace vyrd {

/// What was asked of a log and can't be done: the sentence says what and why.
class Error : public std::runtime_error {
public:
    using std::runtime_error::runtime_error;
};

/// The most bytes of a line, without its line feed.
inline constexpr std::size_t LINE_BYTES = 64;
/// The same in a log of version 3.
inline constexpr std::size_t OWN_LINE_BYTES = 200;

/// The first lines of a log.
class Header {
public:
    /// `vyrd VERSION SUBJECT SIZE CALLERS`: the version is 1 or 2, the subject `multiset`, `cache`,
    /// `tree` or `buffers`, the size from 1 to 1,024, and the callers are from 1 to 64.
    /// Throws Error if one is none of these.
    Header(unsigned version, std::string_view subject, unsigned size, unsigned callers);

    /// Lines for the log to begin with as they are, for a header that this class doesn't know.
    /// `callers` is how many handles the log hands out at a time, from 1 on.
    /// Throws Error if there are no lines or no callers.
    static Header text(std::string lines, unsigned callers);

    /// A log of version 3, with a specification of your own in front of it: the text of a file
    /// `.spec`, from the line `vyrd 3 own WORDS CALLERS` to the line `log`. There are up to 65,536
    /// words, and from 1 to 256 callers. Throws Error if the first line or the last one is another;
    /// what stands between them is for `vyrd check` to judge.
    static Header own(std::string specification);

    /// The same, with the file's path. Throws Error if it can't be read, too.
    static Header own_file(const std::string &path);

    /// Word `word` holds `value` where the log begins. Words may come in any order, and those that
    /// hold 0 are left out. Throws Error if the version is neither 2 nor 3, or if the word was
    /// given before.
    Header &start(std::uint32_t word, std::uint64_t value);

    /// How many callers there are: their numbers are below this.
    unsigned callers() const { return callers_; }

    /// The lines, each with its line feed.
    std::string lines() const;

private:
    friend class Log;
    Header() = default;

    // How many bytes a line of the log may have.
    std::size_t line_bytes() const { return version_ == 3 ? OWN_LINE_BYTES : LINE_BYTES; }

    std::string first_;
    unsigned version_ = 0; // 0: of a text
    unsigned callers_ = 0;
    std::vector<std::pair<std::uint32_t, std::uint64_t>> start_;
};

/// What puts the steps in an order.
enum class Order {
    /// One lock of the log's own, which is held for a step: for any program.
    lock,
    /// A number from one counter, which is drawn at the end of a step, while the program's own lock
    /// keeps others away. It disturbs the threads less, and is for programs alone where each change
    /// is made, and each look taken, under a lock of the program, with its step under that lock
    /// too.
    /// Calls are logged before that lock is taken, and returns after it is given back.
    numbers,
};

/// How a log is written. All has a default.
struct Options {
    /// What puts the steps in an order.
    Order order = Order::lock;
    /// With a seed, callers yield or sleep for a moment before some of their steps, by numbers that
    /// the seed and their own number give. Without one the variable VYRD_SEED is the seed, if it is
    /// a number; if it isn't set there are no such pauses.
    std::optional<std::uint64_t> seed;
    /// How many bytes are kept before they are written.
    std::size_t buffer = 64 * 1024;
    /// Whether what is kept is written by itself too: every 20 milliseconds, at exit, and before a
    /// fatal signal ends the program (SIGABRT, SIGBUS, SIGFPE, SIGILL, SIGSEGV, SIGHUP, SIGINT,
    /// SIGQUIT, SIGTERM, unless the program ignores it). The handlers that were there run after
    /// that. It takes one thread for all logs.
    bool watched = true;
};

namespace detail {

template <class Number>
std::uint64_t natural(const char *what, Number number, std::uint64_t most) {
    static_assert(std::is_integral_v<Number>, "a number of a log is an integer");
    bool negative = false;
    if constexpr (std::is_signed_v<Number>) negative = number < 0;
    if (negative || static_cast<std::uint64_t>(number) > most)
        throw Error(std::string(what) + " is from 0 to " + std::to_string(most) + ", and not " +
                    std::to_string(number));
    return static_cast<std::uint64_t>(number);
}

// The bytes of a log on their way to a file. All of its calls may come from any thread. What it
// keeps ends with a whole line, and so does each write.
class Sink {
public:
    Sink(int descriptor, bool owned, std::size_t capacity)
        : descriptor_(descriptor), owned_(owned), capacity_(capacity) {
        kept_.reserve(capacity + 1024);
    }
    ~Sink() {
        if (owned_) ::close(descriptor_);
    }
    Sink(const Sink &) = delete;
    Sink &operator=(const Sink &) = delete;

    void append(std::string_view lines) {
        std::lock_guard<std::mutex> held(lock_);
        kept_.append(lines);
        if (kept_.size() >= capacity_) put();
    }

    // Writes what is kept, and gives back the first error of any write, or 0.
    int flush() {
        std::lock_guard<std::mutex> held(lock_);
        put();
        return error_;
    }

private:
    void put() {
        const char *at = kept_.data();
        std::size_t left = kept_.size();
        while (left > 0 && error_ == 0) {
            ssize_t done = ::write(descriptor_, at, left);
            if (done >= 0) {
                at += done;
                left -= static_cast<std::size_t>(done);
            } else if (errno == EAGAIN || errno == EWOULDBLOCK) {
                pollfd ready{descriptor_, POLLOUT, 0};
                ::poll(&ready, 1, -1);
            } else if (errno != EINTR) {
                error_ = errno;
            }
        }
        kept_.clear();
    }

    std::mutex lock_;
    std::string kept_;
    int descriptor_;
    bool owned_;
    std::size_t capacity_;
    int error_ = 0;
};

// The second way to order steps: each has a number from one counter, and each caller keeps its own
// steps until they are merged. A number is drawn under the lock of the caller that keeps the step.
// So whoever reads the counter and then takes the locks one after the other finds each number below
// what was read, and no number is missing from a merge.
class Numbers {
public:
    explicit Numbers(unsigned callers) : kept_(callers) {}

    void add(unsigned caller, std::string_view lines, Sink &sink) {
        Kept &kept = kept_[caller];
        std::unique_lock<std::mutex> held(kept.lock);
        std::uint64_t number = next_++;
        kept.text.append(lines);
        kept.steps.push_back({number, kept.text.size()});
        bool full = kept.text.size() >= FULL;
        held.unlock();
        if (full) merge(sink);
    }

    // Gives the sink all steps that were added before this call.
    void merge(Sink &sink) {
        std::lock_guard<std::mutex> held(lock_);
        std::uint64_t below = next_;
        if (below == merged_) return;
        std::vector<std::pair<std::size_t, std::size_t>> places(below - merged_);
        std::string text, ordered;
        for (Kept &kept : kept_)
            take(kept, below, text, places);
        ordered.reserve(text.size());
        for (auto [begin, end] : places)
            ordered.append(text, begin, end - begin);
        sink.append(ordered);
        merged_ = below;
    }

private:
    // The bytes that a caller keeps before it merges all of them itself, where a log isn't watched
    // or the thread that watches doesn't come to it.
    static constexpr std::size_t FULL = 1024 * 1024;

    struct Numbered {
        std::uint64_t number;
        std::size_t end; // where its lines end in the text
    };

    struct Kept {
        std::mutex lock;
        std::string text;
        std::vector<Numbered> steps;
    };

    // Moves the steps below a number to the end of `text`. `places` says where the lines of each
    // begin and end there.
    void take(Kept &kept, std::uint64_t below, std::string &text,
              std::vector<std::pair<std::size_t, std::size_t>> &places) {
        std::lock_guard<std::mutex> held(kept.lock);
        auto later = std::find_if(kept.steps.begin(), kept.steps.end(),
                                  [&](const Numbered &step) { return step.number >= below; });
        std::size_t first = text.size(), begin = first;
        for (auto step = kept.steps.begin(); step != later; ++step) {
            places[step->number - merged_] = {begin, first + step->end};
            begin = first + step->end;
        }
        std::size_t bytes = begin - first;
        text.append(kept.text, 0, bytes);
        kept.text.erase(0, bytes);
        kept.steps.erase(kept.steps.begin(), later);
        for (Numbered &step : kept.steps)
            step.end -= bytes;
    }

    std::atomic<std::uint64_t> next_{0};
    std::vector<Kept> kept_;   // one for each caller
    std::mutex lock_;          // guards the one below
    std::uint64_t merged_ = 0; // all numbers below it are
};

// Where the lines of steps go.
class Output {
public:
    Output(int descriptor, bool owned, std::size_t capacity, unsigned callers, Order order)
        : sink_(descriptor, owned, capacity) {
        if (order == Order::numbers) numbers_.emplace(callers);
    }

    bool numbered() const { return numbers_.has_value(); }

    // What isn't a step's: a log's first lines and its last.
    void put(std::string_view lines) {
        merge();
        sink_.append(lines);
    }

    void add(unsigned caller, std::string_view lines) {
        if (numbers_)
            numbers_->add(caller, lines, sink_);
        else
            sink_.append(lines);
    }

    // Writes what is kept, and gives back the first error of any write, or 0. A forked process has
    // a copy of what its parent keeps, and leaves it to the parent.
    int flush() {
        if (::getpid() != process_) return 0;
        merge();
        return sink_.flush();
    }

private:
    void merge() {
        if (numbers_) numbers_->merge(sink_);
    }

    pid_t process_ = ::getpid();
    Sink sink_;
    std::optional<Numbers> numbers_;
};

// Writes what the logs keep, from a thread of its own. There is one, made with the first log that
// asks for it, and it stays until the process ends, so that exit handlers find it.
class Watch {
public:
    static Watch &get() {
        static Watch *watch = new Watch;
        return *watch;
    }

    void add(Output *output) {
        std::lock_guard<std::mutex> held(lock_);
        outputs_.push_back(output);
        if (!watches_) std::thread([this] { watch(); }).detach();
        watches_ = true;
    }

    void remove(Output *output) {
        std::lock_guard<std::mutex> held(lock_);
        outputs_.erase(std::remove(outputs_.begin(), outputs_.end(), output), outputs_.end());
    }

    void flush() {
        std::lock_guard<std::mutex> held(lock_);
        for (Output *output : outputs_)
            output->flush();
    }

private:
    static constexpr int SIGNALS[] = {SIGABRT, SIGBUS, SIGFPE,  SIGILL, SIGSEGV,
                                      SIGHUP,  SIGINT, SIGQUIT, SIGTERM};
    static constexpr int FAULTS = 5;          // the first ones: the thread that has one can't go on
    static constexpr int PATIENCE_MS = 1'000; // how long such a thread waits for the logs
    static inline struct sigaction before_[std::size(SIGNALS)];
    static inline std::atomic<bool> faulted_{false}; // a fault waits until this is false again
    static inline std::atomic<int> ending_{-1};      // the index of another signal that came

    Watch() {
        std::atexit([] { get().flush(); });
        take_signals();
        ::pthread_atfork([] { get().lock_.lock(); }, [] { get().lock_.unlock(); },
                         [] { get().begin_anew(); });
    }

    // In a forked process: its parent's logs aren't its own, and the thread isn't there.
    void begin_anew() {
        outputs_.clear();
        watches_ = false;
        lock_.unlock();
    }

    void watch() {
        sigset_t all;
        sigfillset(&all);
        for (int n = 0; n < FAULTS; n++)
            sigdelset(&all, SIGNALS[n]);
        pthread_sigmask(SIG_BLOCK, &all, nullptr); // the program's threads take its signals
        for (;;) {
            std::this_thread::sleep_for(std::chrono::milliseconds(20));
            bool faulted = faulted_;
            int ending = ending_.exchange(-1);
            flush();
            if (faulted) faulted_ = false;
            if (ending >= 0) {
                give_back(ending);
                ::kill(::getpid(), SIGNALS[ending]);
            }
        }
    }

    void take_signals() {
        struct sigaction ours {};
        ours.sa_sigaction = on_signal;
        ours.sa_flags = SA_SIGINFO | SA_ONSTACK | SA_RESTART;
        sigemptyset(&ours.sa_mask);
        for (std::size_t n = 0; n < std::size(SIGNALS); n++) {
            sigaction(SIGNALS[n], nullptr, &before_[n]);
            if (before_[n].sa_handler != SIG_IGN) sigaction(SIGNALS[n], &ours, nullptr);
        }
    }

    static void give_back(int n) { sigaction(SIGNALS[n], &before_[n], nullptr); }

    // It may interrupt anything, one that holds a lock of a log too. So it writes nothing, and asks
    // the thread above. One with a fault waits for that; after another signal the program goes on
    // until that thread sends the signal again.
    static void on_signal(int number, siginfo_t *info, void *) {
        int saved = errno;
        int n = 0;
        while (SIGNALS[n] != number)
            n++;
        if (n >= FAULTS) {
            ending_ = n;
        } else {
            faulted_ = true;
            for (int waited = 0; faulted_ && waited < PATIENCE_MS; waited++)
                ::poll(nullptr, 0, 1);
            give_back(n);
            // A fault comes again when this has returned, and what was sent is sent again.
            if (info->si_code <= 0) ::raise(number);
        }
        errno = saved;
    }

    std::mutex lock_; // guards what is below
    std::vector<Output *> outputs_;
    bool watches_ = false;
};

// What a log and its callers share.
struct State {
    std::mutex order; // held for a step, where this is what orders them
    std::atomic<std::thread::id> owner{};
    std::atomic<bool> finished{false};
    std::unique_ptr<Output> output;
    bool watched = false;
    std::size_t line_bytes = LINE_BYTES;
    std::optional<std::uint64_t> seed;
    std::vector<std::atomic<bool>> in_call; // by the callers' numbers

    std::mutex numbers; // guards what is below
    std::condition_variable all_here;
    std::vector<bool> taken;
    unsigned lost = 0; // taken by handles that were given back inside a call
    unsigned waiting = 0;
    std::uint64_t meetings = 0;

    ~State() {
        if (watched) Watch::get().remove(output.get());
        if (output) output->flush();
    }
};

} // namespace detail

/// The lines of one step. They stand in the log one after the other. A line that would have more
/// than 64 bytes, or in version 3 more than 200, throws Error and isn't written, and so does one
/// with a number that a log can't hold; all else is for `vyrd check` to judge.
class Lines {
public:
    /// `call METHOD ARGUMENTS`: arguments are below 2^32. In the step of an action whose outcome
    /// says which method it was, or its arguments, call and return may stand side by side, and
    /// lines of several calls too.
    template <class... Numbers>
    void call(std::string_view method, Numbers... arguments) {
        begin("call ");
        put(method);
        (number("an argument", arguments, UINT32_MAX), ...);
        end();
    }

    /// `return REPLY`: a reply is below 2^64, in version 3 below 2^64 - 1; `true` is 1.
    template <class Number>
    void returns(Number reply) {
        begin("return");
        number("a reply", reply, UINT64_MAX - (most_ == OWN_LINE_BYTES));
        end();
    }

    /// `write WORD VALUE`: the word is one of the subject's, and the value below 2^63.
    template <class Word, class Value>
    void write(Word word, Value value) {
        begin("write");
        number("a word", word, UINT32_MAX);
        number("a value", value, INT64_MAX);
        end();
    }

    /// `commit`: the operation takes effect here.
    void commit() { entry("commit"); }
    /// `open`: writes that take effect together begin.
    void open() { entry("open"); }
    /// `close`: they end.
    void close() { entry("close"); }
    /// `close commit`: they end, and the operation takes effect with them.
    void close_commit() { entry("close commit"); }

    /// An observer whole, its call and its return side by side: it is judged at this one place.
    template <class Reply, class... Numbers>
    void observed(Reply reply, std::string_view method, Numbers... arguments) {
        call(method, arguments...);
        returns(reply);
    }

    /// `# WORDS`, in a log of version 3: it says nothing to `vyrd check`. Throws Error in a log of
    /// another version, and where the words have a line feed.
    void note(std::string_view words) {
        if (most_ != OWN_LINE_BYTES) throw Error("notes are of version 3");
        if (words.find('\n') != words.npos) throw Error("a note has one line");
        size_ = 0;
        put("# ");
        put(words);
        end();
    }

    /// A note of the place in the source that calls it, as `# queue.cpp:61`.
    void here(std::string_view file = __builtin_FILE(), unsigned line = __builtin_LINE()) {
        file.remove_prefix(file.rfind('/') + 1); // the whole of it, if there is none
        note(std::string(file) + ':' + std::to_string(line));
    }

    /// An entry as it is, without the caller's number: for a form that this class doesn't know.
    void entry(std::string_view words) {
        begin(words);
        end();
    }

    /// Writes the lines that `lines` adds as those of another caller, whose operation this step
    /// completes. `caller` is its number.
    template <class Body>
    void helping(unsigned caller, Body &&body) {
        unsigned own = std::exchange(caller_, caller);
        struct Back {
            unsigned &of;
            unsigned to;
            ~Back() { of = to; }
        } back{caller_, own};
        std::forward<Body>(body)(*this);
    }

private:
    friend class Caller;
    Lines(unsigned caller, std::size_t most, std::vector<std::atomic<bool>> *in_call)
        : caller_(caller), most_(most), in_call_(in_call) {
        text_.reserve(512);
    }

    void begin(std::string_view words) {
        size_ = 0;
        digits(caller_);
        put(" ");
        put(words);
        bool call = words.rfind("call ", 0) == 0;
        if ((call || words.rfind("return", 0) == 0) && caller_ < in_call_->size())
            (*in_call_)[caller_].store(call, std::memory_order_relaxed);
    }

    template <class Number>
    void number(const char *what, Number value, std::uint64_t most) {
        put(" ");
        digits(detail::natural(what, value, most));
    }

    // Both keep what a line may have, and leave the rest out: `size_` is then above that.
    void put(std::string_view words) {
        if (size_ + words.size() <= most_) words.copy(line_ + size_, words.size());
        size_ += words.size();
    }

    void digits(std::uint64_t value) {
        if (size_ > most_) return;
        auto [last, fault] = std::to_chars(line_ + size_, line_ + most_, value);
        size_ = fault == std::errc() ? static_cast<std::size_t>(last - line_) : most_ + 1;
    }

    void end() {
        if (size_ > most_)
            throw Error("a line of a log has more than " + std::to_string(most_) + " bytes");
        line_[size_++] = '\n';
        text_.append(line_, size_);
    }

    std::string text_;
    char line_[OWN_LINE_BYTES + 1]; // the line under way
    std::size_t size_ = 0;
    unsigned caller_;
    std::size_t most_;                        // bytes of a line
    std::vector<std::atomic<bool>> *in_call_; // the log's
};

/// One caller of a log, for one thread at a time. Its number is given back with the handle, and may
/// then be that of another thread; so give it back when its last call has returned. Inside a call
/// its number is kept, so that no other thread is blamed.
class Caller {
public:
    Caller(Caller &&) noexcept = default;
    Caller(const Caller &) = delete;
    Caller &operator=(Caller &&) = delete;
    ~Caller() {
        if (!state_) return;
        std::lock_guard<std::mutex> held(state_->numbers);
        bool lost = state_->in_call[number_];
        state_->taken[number_] = lost;
        state_->lost += lost;
    }

    /// Its number, from 0 on and below the header's callers.
    unsigned number() const { return number_; }

    /// Calls `action` with the step's Lines, and gives back what it gives. No step of another
    /// caller takes place meanwhile, so put no more than one change into it, and nothing that
    /// waits. What it throws is passed on, and the lines that it has added stay. Throws Error
    /// inside another step of this thread, and after Log::finish.
    template <class Action>
    decltype(auto) step(Action &&action) {
        pause();
        Step step(*state_, number_, lines_);
        return std::forward<Action>(action)(lines_);
    }

    /// A call, in a step of its own, before the method does anything.
    template <class... Numbers>
    void call(std::string_view method, Numbers... arguments) {
        step([&](Lines &lines) { lines.call(method, arguments...); });
    }

    /// A return, in a step of its own, after the method has done all.
    template <class Number>
    void returns(Number reply) {
        step([&](Lines &lines) { lines.returns(reply); });
    }

    /// A commit in a step of its own, for an operation that takes effect without a change.
    void commit() {
        step([](Lines &lines) { lines.commit(); });
    }

private:
    friend class Log;

    struct Step {
        Step(detail::State &of, unsigned its_caller, Lines &its_lines)
            : state(of), caller(its_caller), lines(its_lines) {
            if (!state.output->numbered()) alone();
            if (state.finished) throw Error("a step of a log that is finished");
            if (held) state.owner.store(std::this_thread::get_id(), std::memory_order_relaxed);
        }
        ~Step() {
            state.output->add(caller, lines.text_);
            lines.text_.clear();
            if (held) state.owner.store(std::thread::id(), std::memory_order_relaxed);
        }
        void alone() {
            if (state.owner.load(std::memory_order_relaxed) == std::this_thread::get_id())
                throw Error("a step inside a step of the same thread");
            held = std::unique_lock<std::mutex>(state.order);
        }
        detail::State &state;
        unsigned caller;
        Lines &lines;
        std::unique_lock<std::mutex> held;
    };

    Caller(std::shared_ptr<detail::State> state, unsigned number)
        : state_(std::move(state)), number_(number), lines_(number, state_->line_bytes, &state_->in_call) {
        // Two multiples of odd numbers: never 0 together, as seeds and numbers go.
        if (state_->seed) draw_ = *state_->seed * 0x9e3779b97f4a7c15 + number * 2 + 1;
    }

    void pause() {
        if (draw_ == 0) return;
        draw_ ^= draw_ << 13;
        draw_ ^= draw_ >> 7;
        draw_ ^= draw_ << 17;
        if (draw_ % 256 == 0)
            std::this_thread::sleep_for(std::chrono::microseconds(draw_ / 256 % 100));
        else if (draw_ % 8 == 0)
            std::this_thread::yield();
    }

    std::shared_ptr<detail::State> state_;
    unsigned number_;
    Lines lines_;
    std::uint64_t draw_ = 0;
};

/// A log that is being written. Its calls may come from any thread.
class Log {
public:
    /// A log in the file `path`, which is made anew. Throws Error if it can't be opened.
    Log(const Header &header, const std::string &path, Options options = {})
        : Log(header, opened(path), true, options) {}

    /// A log to a descriptor that is open, as 1 for standard output, and stays open.
    Log(const Header &header, int descriptor, Options options = {})
        : Log(header, descriptor, false, options) {}

    Log(const Log &) = delete;
    Log &operator=(const Log &) = delete;

    /// Writes what is kept, and no `end`: a log that isn't finished says that the run wasn't.
    ~Log() { state_->output->flush(); }

    /// A handle for a thread, with the least number that is free.
    /// Throws Error if all of the header's callers have one.
    Caller caller() {
        std::lock_guard<std::mutex> held(state_->numbers);
        auto free = std::find(state_->taken.begin(), state_->taken.end(), false);
        if (free == state_->taken.end())
            throw Error("no caller is free: all " + std::to_string(state_->taken.size()) +
                        " of the header are handed out" +
                        (state_->lost == 0 ? ""
                                           : " (given back inside a call: " +
                                                 std::to_string(state_->lost) + ')'));
        *free = true;
        return Caller(state_, static_cast<unsigned>(free - state_->taken.begin()));
    }

    /// Waits until `threads` threads are here, and lets them all go: a start barrier.
    void start_together(unsigned threads) {
        std::unique_lock<std::mutex> held(state_->numbers);
        std::uint64_t meeting = state_->meetings;
        if (++state_->waiting >= threads) {
            state_->waiting = 0;
            state_->meetings++;
            state_->all_here.notify_all();
        } else {
            state_->all_here.wait(held, [&] { return state_->meetings != meeting; });
        }
    }

    /// Writes what is kept, and stays open. Throws Error if a write has failed.
    void flush() {
        int error = state_->output->flush();
        if (error != 0) throw Error(std::string("the log can't be written: ") + strerror(error));
    }

    /// Writes `end` and what is kept: once, when all calls have returned. The log takes no step
    /// after it. Throws Error if it was finished before, or if a write has failed.
    void finish() {
        {
            std::lock_guard<std::mutex> held(state_->order);
            if (state_->finished.exchange(true)) throw Error("a log is finished twice");
            state_->output->put("end\n");
        }
        flush();
    }

private:
    Log(const Header &header, int descriptor, bool owned, const Options &options)
        : state_(std::make_shared<detail::State>()) {
        state_->output = std::make_unique<detail::Output>(descriptor, owned, options.buffer,
                                                          header.callers(), options.order);
        state_->taken.resize(header.callers());
        state_->in_call = std::vector<std::atomic<bool>>(header.callers());
        state_->line_bytes = header.line_bytes();
        state_->seed = options.seed ? options.seed : seed_outside();
        state_->output->put(header.lines());
        if (options.watched) {
            detail::Watch::get().add(state_->output.get());
            state_->watched = true;
        }
    }

    static int opened(const std::string &path) {
        int descriptor = ::open(path.c_str(), O_WRONLY | O_CREAT | O_TRUNC | O_CLOEXEC, 0666);
        if (descriptor < 0) throw Error("can't open " + path + ": " + strerror(errno));
        return descriptor;
    }

    static std::optional<std::uint64_t> seed_outside() {
        const char *text = std::getenv("VYRD_SEED");
        if (!text) return std::nullopt;
        std::uint64_t seed = 0;
        const char *last = text + std::strlen(text);
        auto [end, fault] = std::from_chars(text, last, seed);
        if (fault != std::errc() || end != last) throw Error("VYRD_SEED isn't a number below 2^64");
        return seed;
    }

    std::shared_ptr<detail::State> state_;
};

inline Header::Header(unsigned version, std::string_view subject, unsigned size, unsigned callers)
    : version_(version), callers_(callers) {
    constexpr std::string_view SUBJECTS[] = {"multiset", "cache", "tree", "buffers"};
    if (version != 1 && version != 2) throw Error("the version of a log is 1 or 2");
    if (std::find(std::begin(SUBJECTS), std::end(SUBJECTS), subject) == std::end(SUBJECTS))
        throw Error("no subject of a log: " + std::string(subject));
    if (size < 1 || size > 1024) throw Error("the size of a log is from 1 to 1,024");
    if (callers < 1 || callers > 64) throw Error("the callers of a log are from 1 to 64");
    first_ = "vyrd " + std::to_string(version) + ' ' + std::string(subject) + ' ' +
             std::to_string(size) + ' ' + std::to_string(callers) + '\n';
}

inline Header Header::text(std::string lines, unsigned callers) {
    if (lines.empty()) throw Error("a log has a header");
    if (callers < 1) throw Error("the callers of a log are from 1 on");
    if (lines.back() != '\n') lines += '\n';
    Header header;
    header.first_ = std::move(lines);
    header.callers_ = callers;
    return header;
}

inline Header Header::own(std::string specification) {
    std::string first = specification.substr(0, specification.find('\n'));
    unsigned words = 0, callers = 0;
    std::sscanf(first.c_str(), "vyrd 3 own %u %u", &words, &callers);
    // It is compared with its one spelling, so nothing else is taken for a header.
    bool begins = first == "vyrd 3 own " + std::to_string(words) + ' ' + std::to_string(callers);
    constexpr std::string_view LAST = "\nlog\n";
    if (specification.empty() || specification.back() != '\n') specification += '\n';
    bool ends = specification.size() >= LAST.size() &&
                specification.compare(specification.size() - LAST.size(), LAST.size(), LAST) == 0;
    if (specification.find("\r\n") != std::string::npos && !(begins && ends))
        throw Error("a line of the specification ends with a carriage return: lines end with a "
                    "line feed alone");
    if (!begins || words > 65'536 || callers < 1 || callers > 256)
        throw Error("a specification begins with the line `vyrd 3 own WORDS CALLERS`, with up to "
                    "65,536 words and from 1 to 256 callers");
    if (!ends) throw Error("a specification ends with the line `log`");
    Header header = Header::text(std::move(specification), callers);
    header.version_ = 3;
    return header;
}

inline Header Header::own_file(const std::string &path) {
    using File = std::unique_ptr<std::FILE, int (*)(std::FILE *)>;
    File file(std::fopen(path.c_str(), "rb"), std::fclose);
    std::string text;
    char bytes[4096];
    while (file && !std::feof(file.get()) && !std::ferror(file.get()))
        text.append(bytes, std::fread(bytes, 1, sizeof bytes, file.get()));
    if (!file || std::ferror(file.get()))
        throw Error("can't read " + path + ": " + strerror(errno));
    return own(std::move(text));
}

inline Header &Header::start(std::uint32_t word, std::uint64_t value) {
    if (version_ < 2) throw Error("words at the start are of versions 2 and 3");
    auto at = std::lower_bound(start_.begin(), start_.end(), word,
                               [](const auto &one, std::uint32_t of) { return one.first < of; });
    if (at != start_.end() && at->first == word)
        throw Error("two values of word " + std::to_string(word) + " at the start");
    start_.insert(at, {word, value});
    return *this;
}

inline std::string Header::lines() const {
    std::string text = first_;
    for (const auto &[word, value] : start_)
        if (value != 0)
            text += "start " + std::to_string(word) + ' ' + std::to_string(value) + '\n';
    return text;
}

} // namespace vyrd
