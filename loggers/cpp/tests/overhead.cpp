// What a step costs: nanoseconds of each step and its line, with the log and without it.
//
//     overhead THREADS STEPS
#include "../vyrd_log.hpp"

#include <iomanip>
#include <iostream>

// A change of the program: a store to a word that all threads share.
std::atomic<std::uint64_t> word{0};

template <class Body>
double nanoseconds_of_a_step(unsigned threads, unsigned steps, Body body) {
    auto begin = std::chrono::steady_clock::now();
    std::vector<std::thread> all;
    for (unsigned n = 0; n < threads; n++)
        all.emplace_back([&, n] { body(n); });
    for (std::thread &thread : all)
        thread.join();
    std::chrono::duration<double, std::nano> took = std::chrono::steady_clock::now() - begin;
    return took.count() / (double(threads) * steps);
}

int main(int count, char **words) {
    if (count != 3) {
        std::cerr << "usage: overhead THREADS STEPS\n";
        return 64;
    }
    unsigned threads = unsigned(std::stoul(words[1])), steps = unsigned(std::stoul(words[2]));
    double without = nanoseconds_of_a_step(threads, steps, [&](unsigned) {
        for (unsigned m = 0; m < steps; m++)
            word = m;
    });
    std::cout << std::fixed << std::setprecision(0) << "C++, " << threads << " threads: " << without
              << " ns a step without the log";
    for (vyrd::Order order : {vyrd::Order::lock, vyrd::Order::numbers}) {
        vyrd::Options options;
        options.order = order;
        vyrd::Log log(vyrd::Header(1, "multiset", 1, threads), "/dev/null", options);
        double with = nanoseconds_of_a_step(threads, steps, [&](unsigned) {
            vyrd::Caller caller = log.caller();
            for (unsigned m = 0; m < steps; m++)
                caller.step([&](vyrd::Lines &lines) {
                    word = m;
                    lines.write(1, m);
                });
        });
        std::cout << ", " << with << " ns with it by "
                  << (order == vyrd::Order::lock ? "its lock" : "numbers");
    }
    std::cout << '\n';
}
