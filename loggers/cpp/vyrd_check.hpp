// Runs a body many times in a test and lets `vyrd check` judge each log. One header, C++17, POSIX,
// to copy with vyrd_log.hpp. It needs no test library.
//
//     vyrd::check_runs(vyrd::Header(1, "multiset", 1, 4), [](std::uint64_t seed, vyrd::Log &log) {
//         ... // makes the structure, and lets threads use it; each has a caller of the log
//     });
//
// Each run is a process of its own, a fork of this one. So a body that crashes, or that hangs, ends
// that process alone. What the body sets in variables is gone after it, and what a test library
// notes in it isn't seen: a body says by an exception what it finds wrong.
#pragma once

#include "vyrd_log.hpp"

#include <array>
#include <cstdio>
#include <functional>

#include <limits.h>
#include <signal.h>
#include <sys/stat.h>
#include <sys/wait.h>

namespace vyrd {

/// What check_runs is asked for. All has a default.
struct Check {
    /// How many runs there are.
    unsigned runs = 20;
    /// The first run's seed. The next runs have the numbers after it.
    std::uint64_t seed = 1;
    /// How long the body may take.
    std::chrono::milliseconds time = std::chrono::seconds(60);
    /// How the logs are written. Their seed is the run's.
    Options log;
    /// The folder of the logs. Without one it is a new one in that for temporary files.
    std::string folder;
    /// The program that judges. Without it the variable VYRD names it.
    std::string program;
    /// What says more of a log that isn't accepted. Without it the variable VYRD_EXPLAIN names it,
    /// or else it is `tools/explain` beside the program.
    std::string explain;
};

/// What a run does. It waits for the threads that it starts, and doesn't finish the log: that is
/// done when it has returned.
using Body = std::function<void(std::uint64_t seed, Log &log)>;

/// What check_runs throws: the sentence says what happened in which run, where its log is kept, and
/// what explains it.
class RunsFailed : public std::runtime_error {
public:
    using std::runtime_error::runtime_error;
};

namespace detail {

inline std::string variable(const char *name) {
    const char *value = std::getenv(name);
    return value ? value : "";
}

inline bool is_program(const std::string &path) {
    struct stat about {};
    return ::stat(path.c_str(), &about) == 0 && S_ISREG(about.st_mode) &&
           ::access(path.c_str(), X_OK) == 0;
}

// A program as a shell finds it, or nothing.
inline std::string found(const std::string &named) {
    if (named.find('/') != std::string::npos) return is_program(named) ? named : "";
    std::string folders = variable("PATH");
    for (std::size_t at = 0; at <= folders.size();) {
        std::size_t end = std::min(folders.find(':', at), folders.size());
        std::string path = folders.substr(at, end - at) + '/' + named;
        if (is_program(path)) return path;
        at = end + 1;
    }
    return "";
}

inline std::string beside(const std::string &program) {
    std::array<char, PATH_MAX> room{};
    std::string whole = ::realpath(program.c_str(), room.data()) ? room.data() : program;
    return whole.substr(0, whole.rfind('/') + 1) + "tools/explain";
}

inline std::string trimmed(std::string text) {
    text.erase(text.find_last_not_of(" \n") + 1);
    return text;
}

// How a process ended.
struct Ending {
    int status = 0; // as waitpid gives it
    bool in_time = true;
    std::string said;
};

// Runs `inside` in a process of its own, which ends with what that gives. `inside` may write to the
// descriptor, and what it writes is kept as said. Without a time there is no limit.
template <class Inside>
Ending forked(std::optional<std::chrono::milliseconds> time, Inside inside) {
    std::FILE *file = std::tmpfile();
    if (!file) throw RunsFailed(std::string("no file for what is said: ") + strerror(errno));
    std::fflush(nullptr);
    pid_t child = ::fork();
    if (child == 0) ::_exit(inside(::fileno(file)));
    Ending ending;
    if (child < 0) throw RunsFailed(std::string("no process: ") + strerror(errno));
    auto late = std::chrono::steady_clock::now() + time.value_or(std::chrono::milliseconds(0));
    auto killed = late + std::chrono::seconds(2); // the log's own thread has written it by then
    while (::waitpid(child, &ending.status, WNOHANG) == 0) {
        auto now = std::chrono::steady_clock::now();
        if (time && now >= late) {
            ::kill(child, now >= killed ? SIGKILL : SIGTERM);
            ending.in_time = false;
        }
        std::this_thread::sleep_for(std::chrono::milliseconds(2));
    }
    std::rewind(file);
    std::array<char, 4096> part;
    while (std::size_t count = std::fread(part.data(), 1, part.size(), file))
        ending.said.append(part.data(), count);
    std::fclose(file);
    return ending;
}

// Runs a program with a file as its input, and what it says on standard error after what it says
// otherwise, where that is asked for.
inline Ending run(const std::vector<std::string> &words, const std::string &input, bool errors) {
    return forked(std::nullopt, [&](int said) {
        int from = ::open(input.c_str(), O_RDONLY);
        if (from < 0) return 126;
        std::vector<char *> all;
        for (const std::string &word : words)
            all.push_back(const_cast<char *>(word.c_str()));
        all.push_back(nullptr);
        ::dup2(from, STDIN_FILENO);
        ::dup2(said, STDOUT_FILENO);
        if (errors) ::dup2(said, STDERR_FILENO);
        ::execv(all[0], all.data());
        return 127;
    });
}

// The program, and what explains its answers.
class Judge {
public:
    explicit Judge(const Check &check) {
        std::string named = check.program.empty() ? variable("VYRD") : check.program;
        if (named.empty())
            throw RunsFailed("no program judges the logs: the variable VYRD or the option program "
                             "is to name it");
        program_ = found(named);
        if (program_.empty())
            throw RunsFailed("the program that judges the logs can't be run: " + named);
        explain_ = check.explain.empty() ? variable("VYRD_EXPLAIN") : check.explain;
        if (explain_.empty()) explain_ = beside(program_);
    }

    // The line of a verdict, or what there was in place of one.
    std::string verdict(const std::string &log) const {
        constexpr std::string_view STARTS[] = {"accepted: ", "violation at line ",
                                               "malformed at line "};
        Ending ending = run({program_, "check"}, log, false);
        std::string line = trimmed(ending.said);
        int status = WIFEXITED(ending.status) ? WEXITSTATUS(ending.status) : -1;
        if (status >= 0 && status < 3 && line.rfind(STARTS[status], 0) == 0) return line;
        return program_ + " gave no verdict, " + how(ending.status) + ", and said: " + line;
    }

    std::string explanation(const std::string &log) const {
        if (!is_program(explain_)) return "Nothing explains it: there is no " + explain_;
        return trimmed(run({"/usr/bin/env", "VYRD=" + program_, explain_, log}, log, true).said);
    }

    static std::string how(int status) {
        if (WIFSIGNALED(status)) return "was ended by signal " + std::to_string(WTERMSIG(status));
        return "ended with status " + std::to_string(WEXITSTATUS(status));
    }

private:
    std::string program_;
    std::string explain_;
};

// Calls the body in a process of its own. Gives what went wrong, or nothing.
inline std::string play(const Header &header, const Check &check, std::uint64_t seed,
                        const std::string &path, const Body &body) {
    constexpr int THROWN = 113; // no status that a program would choose
    Ending ending = forked(check.time, [&](int said) {
        auto say = [&](const std::string &sentence) {
            std::fflush(nullptr);
            return ::write(said, sentence.data(), sentence.size()) < 0 ? THROWN + 1 : THROWN;
        };
        try {
            Options options = check.log;
            options.seed = seed;
            Log log(header, path, options);
            body(seed, log);
            log.finish();
            std::fflush(nullptr);
            return 0;
        } catch (const std::exception &error) {
            return say(error.what());
        } catch (...) {
            return say("what is no std::exception");
        }
    });
    if (!ending.in_time)
        return "the body hasn't returned after " + std::to_string(check.time.count()) +
               " milliseconds; ";
    if (WIFEXITED(ending.status) && WEXITSTATUS(ending.status) == 0) return "";
    if (WIFEXITED(ending.status) && WEXITSTATUS(ending.status) == THROWN)
        return "the body threw: " + ending.said + "; ";
    return "the body's process " + Judge::how(ending.status) + "; ";
}

inline std::string made(const std::string &folder) {
    if (!folder.empty()) {
        if (::mkdir(folder.c_str(), 0777) != 0 && errno != EEXIST)
            throw RunsFailed("can't make the folder " + folder + ": " + strerror(errno));
        return folder;
    }
    std::string temporary = variable("TMPDIR");
    std::string name = (temporary.empty() ? "/tmp" : temporary) + "/vyrd_XXXXXX";
    if (!::mkdtemp(name.data())) throw RunsFailed("can't make " + name + ": " + strerror(errno));
    return name;
}

} // namespace detail

/// Calls the body in many runs, each with a seed and a log of its own, and lets the program judge
/// each log. A log that is accepted is removed.
///
/// Throws RunsFailed at the first run whose log isn't accepted or has no entry, whose body throws or
/// crashes, or whose body hasn't returned in time. The log is then kept, and judged as it is. It is
/// thrown too if the program can't be run, or if a log can't be written.
inline void check_runs(const Header &header, const Check &check, const Body &body) {
    detail::Judge judge(check);
    std::string folder = detail::made(check.folder);
    for (unsigned n = 0; n < check.runs; n++) {
        std::uint64_t seed = check.seed + n;
        std::string path = folder + '/' + std::to_string(seed) + ".log";
        std::string fault = detail::play(header, check, seed, path, body);
        std::string verdict = judge.verdict(path);
        if (fault.empty() && verdict.rfind("accepted: 0 entries", 0) == 0)
            fault = "the run logged nothing; ";
        if (!fault.empty() || verdict.rfind("accepted: ", 0) != 0)
            throw RunsFailed("run " + std::to_string(n + 1) + " of " + std::to_string(check.runs) +
                             ", with seed " + std::to_string(seed) + ": " + fault + verdict +
                             "\nThe log is kept: " + path + "\n\n" + judge.explanation(path));
        ::unlink(path.c_str());
    }
    if (check.folder.empty()) ::rmdir(folder.c_str());
}

/// The same with what is asked by default.
inline void check_runs(const Header &header, const Body &body) {
    check_runs(header, Check(), body);
}

/// The same for a test library that looks at a value: nothing if all logs are accepted, and
/// otherwise the sentence that check_runs throws.
inline std::optional<std::string> failed_run(const Header &header, const Check &check,
                                             const Body &body) {
    try {
        check_runs(header, check, body);
        return std::nullopt;
    } catch (const RunsFailed &failed) {
        return failed.what();
    }
}

} // namespace vyrd
