// Writes a VYRD log from any number of threads. Copy it into your program.
//
// One lock orders all lines. A change of your structure and the lines that tell of it are made under this lock, as one
// step, so that the log has the changes in the order in which they took place:
//
//     log.step(caller, [&](VyrdLog::Lines &lines) { slot.value = x; lines.write(1, x); });
//
// What only looks needs no step. The lines are kept in memory until `print`.
#pragma once
#include <cstdint>
#include <iostream>
#include <mutex>
#include <string>
#include <utility>

class VyrdLog {
public:
    // The lines of one step of one caller. They stand in the log one after the other.
    class Lines {
    public:
        void write(std::uint32_t word, std::uint64_t value) {
            put("write " + std::to_string(word) + " " + std::to_string(value));
        }
        void commit() { put("commit"); }
        void open() { put("open"); }
        void close() { put("close"); }
        void close_commit() { put("close commit"); }

    private:
        friend class VyrdLog;
        Lines(std::string &text, unsigned caller) : text(text), caller(caller) {}
        void put(const std::string &entry) { text += std::to_string(caller) + " " + entry + "\n"; }

        std::string &text;
        unsigned caller;
    };

    // SUBJECT is multiset, cache, tree or buffers; SIZE is from 1 to 1,024 and CALLERS from 1 to 64. Callers count from 0.
    VyrdLog(const std::string &subject, unsigned size, unsigned callers)
        : text("vyrd 1 " + subject + " " + std::to_string(size) + " " + std::to_string(callers) + "\n") {}

    // Does `change` and adds its lines, with no line of another caller between them. It gives back what `change` gives.
    template <class Change> auto step(unsigned caller, Change change) {
        std::lock_guard<std::mutex> held(order);
        Lines lines(text, caller);
        return change(lines);
    }

    // Before the method does anything: `log.call(caller, "insert 5")`.
    void call(unsigned caller, const std::string &method) {
        step(caller, [&](Lines &lines) { lines.put("call " + method); });
    }

    // After the method has done all.
    void returns(unsigned caller, std::uint64_t reply) {
        step(caller, [&](Lines &lines) { lines.put("return " + std::to_string(reply)); });
    }

    // Once, when all threads have ended.
    void print(std::ostream &out) { out << text << "end\n" << std::flush; }

private:
    std::mutex order;
    std::string text;
};
