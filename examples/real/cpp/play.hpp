// Threads that use a structure, each with a caller of the log and with numbers that a seed gives.
#pragma once

#include "vyrd_log.hpp"

#include <iostream>
#include <random>

/// What a program's words ask for.
struct Words {
    std::string fault, specification;
    unsigned seed = 1, operations = 100;

    /// `NAME FAULT SPECIFICATION [SEED [OPERATIONS]]`, with a fault among these.
    Words(int count, char **words, const std::vector<std::string> &faults) {
        if (count > 1) fault = words[1];
        if (count < 3 || count > 5 || std::count(faults.begin(), faults.end(), fault) == 0) {
            std::cerr << "usage: " << words[0]
                      << " FAULT SPECIFICATION [SEED [OPERATIONS]], where FAULT is one of:";
            for (const std::string &known : faults)
                std::cerr << ' ' << known;
            std::cerr << '\n';
            std::exit(64);
        }
        specification = words[2];
        if (count > 3) seed = static_cast<unsigned>(std::stoul(words[3]));
        if (count > 4) operations = static_cast<unsigned>(std::stoul(words[4]));
    }
};

/// Four threads call `operation(caller, random)` so many times each, and the log on standard output
/// ends with them.
template <class Operation>
void play(const Words &words, vyrd::Order order, Operation operation) {
    constexpr unsigned THREADS = 4;
    vyrd::Options options;
    options.order = order;
    options.seed = words.seed;
    vyrd::Log log(vyrd::Header::own_file(words.specification), STDOUT_FILENO, options);
    std::vector<std::thread> threads;
    for (unsigned n = 0; n < THREADS; n++)
        threads.emplace_back([&] {
            vyrd::Caller caller = log.caller();
            std::minstd_rand random(words.seed * THREADS + caller.number() + 1);
            log.start_together(THREADS);
            for (unsigned m = 0; m < words.operations; m++)
                operation(caller, random);
        });
    for (std::thread &thread : threads)
        thread.join();
    log.finish();
}
