// What stands in a log byte by byte, and what is refused.
#include "../vyrd_log.hpp"

#include <cstdio>
#include <fstream>
#include <iostream>
#include <iterator>

namespace {

int failed = 0;

void expect(bool holds, const std::string &what) {
    if (holds) return;
    failed++;
    std::cout << "failed: " << what << '\n';
}

template <class Action>
void refuses(const std::string &start, Action action) {
    try {
        action();
        expect(false, "not refused: " + start);
    } catch (const vyrd::Error &error) {
        expect(std::string(error.what()).rfind(start, 0) == 0, start + ", but: " + error.what());
    }
}

// What the log of `body` has.
template <class Body>
std::string written(const vyrd::Header &header, Body body, vyrd::Options options = {}) {
    std::string path = "unit.log"; // the tests run in a folder of their own
    {
        vyrd::Log log(header, path, options);
        body(log);
    }
    std::ifstream file(path);
    std::string text{std::istreambuf_iterator<char>(file), {}};
    std::remove(path.c_str());
    return text;
}

void each_line() {
    std::string text = written(vyrd::Header(1, "tree", 2, 3), [](vyrd::Log &log) {
        vyrd::Caller first = log.caller(), second = log.caller();
        first.call("insert", 4294967295, 0);
        first.step([](vyrd::Lines &lines) {
            lines.open();
            lines.write(4, 4294967295u);
            lines.write(1, 1);
            lines.close();
            lines.close_commit();
            lines.commit();
            lines.entry("commit");
        });
        first.returns(18446744073709551615u);
        int reply = second.step([](vyrd::Lines &lines) {
            lines.observed(1, "lookup", 7);
            lines.call("delete", 7);
            lines.helping(2, [](vyrd::Lines &of) { of.commit(); });
            lines.commit();
            lines.returns(false);
            return 3;
        });
        expect(reply == 3, "a step gives back what its action gives");
        log.finish();
    });
    expect(text == "vyrd 1 tree 2 3\n"
                   "0 call insert 4294967295 0\n"
                   "0 open\n0 write 4 4294967295\n0 write 1 1\n0 close\n0 close commit\n"
                   "0 commit\n0 commit\n0 return 18446744073709551615\n"
                   "1 call lookup 7\n1 return 1\n1 call delete 7\n2 commit\n1 commit\n1 return 0\n"
                   "end\n",
           "each line: " + text);
}

void headers() {
    vyrd::Header header(2, "multiset", 1, 1);
    header.start(3, 0).start(1, 5).start(0, 2);
    expect(header.lines() == "vyrd 2 multiset 1 1\nstart 0 2\nstart 1 5\n", "starting lines");
    refuses("two values of word 1", [&] { header.start(1, 6); });
    refuses("words at the start", [] { vyrd::Header(1, "multiset", 1, 1).start(0, 2); });
    refuses("the version", [] { vyrd::Header(3, "multiset", 1, 1); });
    refuses("no subject", [] { vyrd::Header(1, "queue", 1, 1); });
    refuses("the size", [] { vyrd::Header(1, "tree", 0, 1); });
    refuses("the size", [] { vyrd::Header(1, "tree", 1025, 1); });
    refuses("the callers", [] { vyrd::Header(1, "tree", 1, 0); });
    refuses("the callers", [] { vyrd::Header(1, "tree", 1, 65); });
    refuses("a log has a header", [] { vyrd::Header::text("", 1); });
    refuses("the callers", [] { vyrd::Header::text("vyrd 3 own 0 0", 0); });
    vyrd::Header own = vyrd::Header::text("vyrd 3 own 0 100\nlog", 100);
    expect(own.lines() == "vyrd 3 own 0 100\nlog\n" && own.callers() == 100, "a header as text");
}

const std::string SPECIFICATION = "vyrd 3 own 2 200\nlist all\nmethod take x\n  answer 0\n"
                                  "  allow (reply == 1)\n    drop first all\nlog\n";

void own_headers() {
    constexpr const char *PATH = "unit.spec";
    expect(vyrd::Header::own(SPECIFICATION).lines() == SPECIFICATION, "a specification");
    std::string cut = SPECIFICATION.substr(0, SPECIFICATION.size() - 1);
    vyrd::Header header = vyrd::Header::own(cut);
    header.start(1, 7).start(0, 5);
    expect(header.lines() == SPECIFICATION + "start 0 5\nstart 1 7\n" && header.callers() == 200,
           "a specification with words at the start");
    std::ofstream(PATH) << SPECIFICATION;
    expect(vyrd::Header::own_file(PATH).lines() == SPECIFICATION, "a specification in a file");
    std::remove(PATH);
    refuses("can't read unit.spec: ", [] { vyrd::Header::own_file("unit.spec"); });
    refuses("can't read .: ", [] { vyrd::Header::own_file("."); });
    for (const char *first :
         {"", "vyrd 2 own 0 1", "vyrd 3 own 0", "vyrd 3 own 0 0", "vyrd 3 own 0 257",
          "vyrd 3 own 65537 1", "vyrd 3 own 00 1", "vyrd 3 own 0 1 ", "vyrd 3 own -1 1",
          "vyrd 3 own 4294967296 1", "\nvyrd 3 own 0 1"})
        refuses("a specification begins with the line `vyrd 3 own WORDS CALLERS`",
                [&] { vyrd::Header::own(first + std::string("\nlog\n")); });
    for (const char *rest : {"", "\nmethod x", "\nlog\n\n", "\n log", "\nlog\nend"})
        refuses("a specification ends with the line `log`",
                [&] { vyrd::Header::own(std::string("vyrd 3 own 65536 256") + rest); });
    for (const char *rest : {"\r\nlog\r\n", "\r\nlog\n", "\nlog\r\n"})
        refuses("a line of the specification ends with a carriage return: ",
                [&] { vyrd::Header::own(std::string("vyrd 3 own 65536 256") + rest); });
}

// Lines of 200 bytes, notes, a call in the step that decides it, and one that commits nothing.
void own_lines() {
    unsigned place = 0;
    std::string text = written(vyrd::Header::own(SPECIFICATION), [&](vyrd::Log &log) {
        vyrd::Caller caller = log.caller();
        caller.step([&](vyrd::Lines &lines) {
            lines.note("all at once");
            lines.here(), place = __LINE__;
            lines.note(std::string(198, 'x'));
            lines.call("take", 5);
            lines.commit();
        });
        caller.returns(1);
        caller.call(std::string(41, 'x'), 4294967295, 4294967295, 4294967295);
        caller.returns(0);
        caller.step([](vyrd::Lines &lines) {
            refuses("a line of a log has more than 200 bytes",
                    [&] { lines.note(std::string(199, 'x')); });
            refuses("a note has one line", [&] { lines.note("two\nlines"); });
        });
        log.finish();
    });
    expect(text == SPECIFICATION + "# all at once\n# unit.cpp:" + std::to_string(place) + "\n# " +
                       std::string(198, 'x') + "\n0 call take 5\n0 commit\n0 return 1\n0 call " +
                       std::string(41, 'x') +
                       " 4294967295 4294967295 4294967295\n0 return 0\nend\n",
           "a log of version 3: " + text);
    written(vyrd::Header(2, "multiset", 1, 1), [](vyrd::Log &log) {
        log.caller().step([](vyrd::Lines &lines) {
            refuses("notes are of version 3", [&] { lines.note("here"); });
        });
    });
}

void handles() {
    written(vyrd::Header(1, "multiset", 1, 2), [](vyrd::Log &log) {
        std::optional<vyrd::Caller> first(log.caller());
        vyrd::Caller second = log.caller();
        refuses("no caller is free: all 2 of the header are handed out", [&] { log.caller(); });
        first.reset();
        vyrd::Caller third = log.caller();
        expect(third.number() == 0 && second.number() == 1, "the least number that is free");
        vyrd::Caller moved = std::move(third);
        expect(moved.number() == 0, "a handle that is moved keeps its number");
        refuses("no caller is free", [&] { log.caller(); });
    });
}

// Its number isn't another thread's, whose call would then stand inside its own.
void handles_that_are_given_back_inside_a_call() {
    written(vyrd::Header(1, "multiset", 1, 2), [](vyrd::Log &log) {
        std::optional<vyrd::Caller> first(log.caller()), second(log.caller());
        first->call("insert", 5);
        first.reset();
        const std::string refused = "no caller is free: all 2 of the header are handed out (given "
                                    "back inside a call: ";
        refuses(refused + "1)", [&] { log.caller(); });
        second->call("insert", 5);
        second->step([](vyrd::Lines &lines) { lines.entry("return 0"); });
        second.reset();
        std::optional<vyrd::Caller> third(log.caller());
        expect(third->number() == 1, "the one that has returned");
        third->call("delete", 5);
        third->step([](vyrd::Lines &lines) {
            lines.helping(0, [](vyrd::Lines &helped) { helped.returns(1); });
        });
        third.reset();
        refuses(refused + "2)", [&] { log.caller(); });
    });
}

void refused_steps() {
    std::string text = written(vyrd::Header(1, "multiset", 1, 1), [](vyrd::Log &log) {
        vyrd::Caller caller = log.caller();
        refuses("a step inside a step", [&] {
            caller.step([&](vyrd::Lines &lines) {
                lines.commit();
                caller.returns(1);
            });
        });
        std::string longest(64 - std::strlen("0 call "), 'x');
        caller.call(longest);
        refuses("a line of a log has more than 64 bytes", [&] { caller.call(longest + 'x'); });
        refuses("a line of a log has more than 64 bytes",
                [&] { caller.call(std::string(50, 'x'), 4294967295u); });
        refuses("an argument is from 0 to 4294967295, and not -1",
                [&] { caller.call("insert", 5, -1); });
        refuses("an argument is from 0 to 4294967295, and not 4294967296",
                [&] { caller.call("insert", std::uint64_t(1) << 32); });
        refuses("a reply is from 0 to 18446744073709551615, and not -1",
                [&] { caller.returns(-1); });
        caller.step([](vyrd::Lines &lines) {
            refuses("a word is from 0 to 4294967295, and not -1", [&] { lines.write(-1, 0); });
            refuses("a value is from 0 to 9223372036854775807, and not 9223372036854775808",
                    [&] { lines.write(0, std::uint64_t(1) << 63); });
        });
        log.finish();
        refuses("a step of a log that is finished", [&] { caller.returns(1); });
        refuses("a log is finished twice", [&] { log.finish(); });
    });
    expect(text == "vyrd 1 multiset 1 1\n0 commit\n0 call " + std::string(57, 'x') + "\nend\n",
           "the lines before a refusal stay: " + text);
    refuses("can't open no/such/folder/log: ",
            [] { vyrd::Log(vyrd::Header(1, "multiset", 1, 1), "no/such/folder/log"); });
    vyrd::Log full(vyrd::Header(1, "multiset", 1, 1), "/dev/full");
    refuses("the log can't be written: ", [&] { full.finish(); });
}

// A buffer that is too small for two lines, threads that meet, and pauses by a seed.
void threads(vyrd::Order order) {
    vyrd::Options options;
    options.order = order;
    options.buffer = 8;
    options.seed = 3;
    options.watched = false;
    std::string text = written(
        vyrd::Header(1, "cache", 1, 8),
        [](vyrd::Log &log) {
            std::vector<std::thread> all;
            for (unsigned n = 0; n < 8; n++)
                all.emplace_back([&] {
                    vyrd::Caller caller = log.caller();
                    log.start_together(8);
                    for (unsigned m = 0; m < 5000; m++)
                        caller.step([](vyrd::Lines &lines) { lines.observed(0, "read", 0); });
                });
            for (std::thread &thread : all)
                thread.join();
        },
        options);
    std::size_t pairs = 0, at = text.find('\n') + 1;
    for (; at < text.size(); pairs++) {
        std::string number(1, text[at]);
        std::string wanted = number + " call read 0\n" + number + " return 0\n";
        if (text.compare(at, wanted.size(), wanted) != 0) break;
        at += wanted.size();
    }
    expect(pairs == 40000 && at == text.size(), "the lines of a step stand together");
}

// A lock of the program gives the order; each caller's number stands in its lines.
void numbers() {
    vyrd::Options options;
    options.order = vyrd::Order::numbers;
    std::string wanted = "vyrd 1 cache 1 4\n";
    std::mutex order;
    std::string text = written(
        vyrd::Header(1, "cache", 1, 4),
        [&](vyrd::Log &log) {
            std::vector<std::thread> all;
            for (unsigned n = 0; n < 4; n++)
                all.emplace_back([&] {
                    vyrd::Caller caller = log.caller();
                    for (unsigned m = 0; m < 3000; m++) {
                        std::lock_guard<std::mutex> held(order);
                        caller.step([&](vyrd::Lines &lines) { lines.write(0, m); });
                        wanted += std::to_string(caller.number()) + " write 0 " +
                                  std::to_string(m) + '\n';
                    }
                });
            for (std::thread &thread : all)
                thread.join();
            log.finish();
        },
        options);
    expect(text == wanted + "end\n", "numbers keep the order of the program's lock");
}

} // namespace

int main() {
    each_line();
    headers();
    own_headers();
    own_lines();
    handles();
    handles_that_are_given_back_inside_a_call();
    refused_steps();
    threads(vyrd::Order::lock);
    threads(vyrd::Order::numbers);
    numbers();
    return failed == 0 ? 0 : 1;
}
