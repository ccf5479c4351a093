// A program that ends in the way that its first word says, with a log in the file of its second.
//
//     life finish | leave | exit | throw | abort | fault | fault_in_step | terminate | handled |
//     fork | hang FILE
#include "../vyrd_log.hpp"

#include <csignal>
#include <iostream>

#include <sys/wait.h>

int main(int count, char **words) {
    if (count != 3) {
        std::cerr << "usage: life WAY FILE\n";
        return 64;
    }
    std::string way = words[1];
    if (way == "handled") std::signal(SIGTERM, [](int) { ::_exit(7); }); // before the log is opened
    vyrd::Log log(vyrd::Header(1, "multiset", 1, 2), words[2]);
    vyrd::Caller first = log.caller(), second = log.caller();
    first.call("insert", 5);
    first.step([](vyrd::Lines &lines) { lines.write(1, 5); });
    first.step([](vyrd::Lines &lines) {
        lines.write(0, 2);
        lines.commit();
    });
    first.returns(true);
    second.call("lookup", 5);
    volatile int *nowhere = nullptr;
    if (way == "finish") {
        second.returns(true);
        log.finish();
    } else if (way == "exit") {
        std::exit(3);
    } else if (way == "throw") {
        throw std::runtime_error("thrown by the test");
    } else if (way == "abort") {
        std::abort();
    } else if (way == "fault") {
        *nowhere = 1;
    } else if (way == "fault_in_step") {
        second.step([&](vyrd::Lines &) { *nowhere = 1; });
    } else if (way == "terminate" || way == "handled") {
        ::kill(::getpid(), SIGTERM);
        ::sleep(60);
    } else if (way == "fork") {
        if (::fork() == 0) std::exit(0); // what the copy keeps isn't its own
        ::wait(nullptr);
    } else if (way == "hang") {
        second.step([](vyrd::Lines &) { ::sleep(60); });
    }
}
