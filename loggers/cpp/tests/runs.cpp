// Many runs in a test: what is accepted, what isn't, and what is said then. The variable VYRD names
// the program, and VYRD_EXPLAIN what explains its answers.
#include "../vyrd_check.hpp"
#include "multiset.hpp"

#include <fstream>
#include <iostream>
#include <iterator>

namespace {

int failed = 0;

void expect(bool holds, const std::string &what) {
    if (holds) return;
    failed++;
    std::cout << "failed: " << what << '\n';
}

const vyrd::Header HEADER(1, "multiset", 1, 4);
const std::string FOLDER = "logs"; // the tests run in a folder of their own
const std::string BEGUN = "vyrd 1 multiset 1 4\n0 call insert 5\n";

vyrd::Check asked() {
    vyrd::Check check;
    check.folder = FOLDER;
    return check;
}

std::string log_of(unsigned seed) {
    std::ifstream file(FOLDER + '/' + std::to_string(seed) + ".log");
    return {std::istreambuf_iterator<char>(file), {}};
}

void correct(std::uint64_t seed, vyrd::Log &log) {
    together(log, 4, seed);
}

void fails(const vyrd::Check &check, const vyrd::Body &body, const std::string &start) {
    std::string said = vyrd::failed_run(HEADER, check, body).value_or("nothing failed");
    expect(said.rfind(start, 0) == 0, "wanted: " + start + "\ngot: " + said);
}

// Seeds from 5 on, each in a process of its own.
void a_correct_structure_passes() {
    vyrd::Check check = asked();
    check.seed = 5;
    vyrd::check_runs(HEADER, check, [](std::uint64_t seed, vyrd::Log &log) {
        correct(seed, log);
        std::ofstream(FOLDER + "/seeds", std::ios::app) << seed << ' ';
    });
    std::string wanted;
    for (unsigned seed = 5; seed < 25; seed++) {
        wanted += std::to_string(seed) + ' ';
        expect(log_of(seed).empty(), "a log that is accepted is removed");
    }
    std::ifstream file(FOLDER + "/seeds");
    std::string seeds{std::istreambuf_iterator<char>(file), {}};
    expect(seeds == wanted, "the seeds: " + seeds);
}

void a_broken_one_fails_with_what_explain_says() {
    auto body = [](std::uint64_t seed, vyrd::Log &log) {
        seed == 3 ? interrupted(log) : correct(seed, log);
    };
    std::string verdict = "violation at line 10: view differs at key 6\n";
    std::string start = "run 3 of 20, with seed 3: " + verdict + "The log is kept: " + FOLDER +
                        "/3.log\n\n" + verdict;
    fails(asked(), body, start);
    std::string said = vyrd::failed_run(HEADER, asked(), body).value_or("");
    std::string explained = "\n  line 8: caller 0, slot 0 value 6 -> 5; shown once -> not at all\n";
    expect(said.find(explained) != std::string::npos, "what explains says: " + said);
    std::string log = log_of(3);
    expect(log.size() > 5 && log.substr(log.size() - 5) == "\nend\n", "the log that is kept");
}

void a_run_that_logs_nothing_fails() {
    auto body = [](std::uint64_t, vyrd::Log &log) { log.caller().step([](vyrd::Lines &) {}); };
    fails(asked(), body,
          "run 1 of 20, with seed 1: the run logged nothing; accepted: 0 entries, 0 commits, 0 "
          "observers\nThe log is kept: " +
              FOLDER + "/1.log\n");
    expect(log_of(1) == "vyrd 1 multiset 1 4\nend\n", "a step without a line writes nothing");
}

// What a thread throws and nobody catches ends the process of the body.
void a_thread_that_throws() {
    auto body = [](std::uint64_t, vyrd::Log &log) {
        std::thread([&] {
            vyrd::Caller caller = log.caller();
            caller.call("insert", 5);
            throw std::runtime_error("by the test");
        }).join();
    };
    fails(asked(), body,
          "run 1 of 20, with seed 1: the body's process was ended by signal 6; malformed at line "
          "3: no end\n");
    expect(log_of(1) == BEGUN, "the lines before that: " + log_of(1));
}

// A body that begins a call, and then does something else than to return.
void ends_otherwise(const std::string &fault, void (*then)(),
                    std::chrono::milliseconds time = std::chrono::minutes(1)) {
    vyrd::Check check = asked();
    check.time = time;
    auto body = [&](std::uint64_t, vyrd::Log &log) {
        vyrd::Caller caller = log.caller();
        caller.call("insert", 5);
        then();
    };
    fails(check, body, "run 1 of 20, with seed 1: " + fault + "; malformed at line 3: no end\n");
    expect(log_of(1) == BEGUN, "the lines before that: " + log_of(1));
}

void a_program_that_is_not_there_or_gives_no_verdict() {
    vyrd::Check check = asked();
    check.program = "/no/vyrd";
    fails(check, correct, "the program that judges the logs can't be run: /no/vyrd");
    check.program = "false";
    check.explain = "/no/explain";
    std::string said = vyrd::failed_run(HEADER, check, correct).value_or("");
    expect(said.find("false gave no verdict, ended with status 1, and said: \n") !=
               std::string::npos,
           said);
    expect(said.find("\nNothing explains it: there is no /no/explain") != std::string::npos, said);
    ::unsetenv("VYRD");
    fails(asked(), correct, "no program judges the logs: the variable VYRD or the option program");
}

} // namespace

int main() {
    // A log of this process, so that there is a thread which the forked ones don't have.
    vyrd::Log own(HEADER, "own.log");
    a_correct_structure_passes();
    a_broken_one_fails_with_what_explain_says();
    a_run_that_logs_nothing_fails();
    a_thread_that_throws();
    ends_otherwise("the body threw: by the test", [] { throw std::runtime_error("by the test"); });
    ends_otherwise("the body's process was ended by signal 6", [] { std::abort(); });
    ends_otherwise("the body's process ended with status 3", [] { ::exit(3); });
    ends_otherwise(
        "the body hasn't returned after 2000 milliseconds",
        [] {
            for (;;)
                ::pause();
        },
        std::chrono::seconds(2));
    a_program_that_is_not_there_or_gives_no_verdict();
    return failed == 0 ? 0 : 1;
}
