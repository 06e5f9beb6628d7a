// Sessions for tests: one that fails leaves its session. For C++17, and any way to write tests; with GoogleTest include
// tracehost_gtest.hpp, with Catch2 tracehost_catch2.hpp.
//
//     tracehost_test test("attaching_stops_the_target");
//     test.call(tracehost_spawn, 1001);
//     if (..)
//         test.fail("the target runs", __FILE__, __LINE__);
//
// A test has failed if `fail` was called, if an exception leaves its scope, or if a signal ends the program. It leaves
// PROGRAM.NAME-DIGEST.json, a scenario with the steps, with .out their lines, and with .html a page with the test's name, the
// first message and the state at that step. They are in the folder $TRACEHOST_ARTIFACTS, else in a new one below $TMPDIR or /tmp,
// and standard error says where. $TRACEHOST and $TRACEHOST_VIEW name the programs that make the page; else they are tracehost
// and tracehost-view. A further test of the name in this process gets a number. A test that passes leaves nothing, and removes
// what it left in an earlier run; a forked child does neither. If $TRACEHOST_TRACES names a folder, a test that ends leaves a
// copy of its scenario there, whether it passes or fails, as PROGRAM.NAME-DIGEST.PROCESS.json. What can't be recorded is told,
// and changes neither a call nor the test. While a test runs the process's number is at the end of the names: they stay so after SIGKILL, or if the program
// handles the signal itself.
#ifndef TRACEHOST_TEST_HPP
#define TRACEHOST_TEST_HPP

#include "tracehost.hpp"
#include "tracehost_crashes.hpp"

#include <exception>
#include <ostream>
#include <string>
#include <thread>

// A reply in words: "ok", "held", "error ESRCH", "1001 stopped SIGTRAP". A check of it says what came in place of what:
// EXPECT_EQ(tracehost_words(reply), "ok").
inline std::string tracehost_words(const tracehost_reply &reply)
{
    // tools/format replies
    static const char *const kinds[] = {
        "ok", "new", "number", "status", "nothing", "info", "lwps", "pids", "mask", "handled", "stopped", "caught",
        "ended", "held", "error"
    };
    static const auto error = [](std::uint32_t number) -> std::string {
        switch (number) {
        case 1: return "EPERM";
        case 3: return "ESRCH";
        case 10: return "ECHILD";
        case 12: return "ENOMEM";
        case 16: return "EBUSY";
        case 22: return "EINVAL";
        case 35: return "EAGAIN";
        default: return std::to_string(number);
        }
    };
    // end
    const std::string name = reply.kind < sizeof kinds / sizeof *kinds ? kinds[reply.kind] : std::to_string(reply.kind);
    const auto signal = [](std::uint32_t number) { return tracehost_refusals::asked::signal_name(number); };
    const auto status = [&](std::uint32_t word) {
        if (word == 0x13)
            return std::string("continued");
        if ((word & 0xff) == 0x7f)
            return "stopped " + signal(word >> 8);
        return (word & 0x7f) == 0 ? "exited " + std::to_string(word >> 8) : "ended by " + signal(word & 0x7f);
    };
    switch (reply.kind) {
    case TRACEHOST_NEW: return "new " + std::to_string(reply.pid) + " " + std::to_string(reply.lwp);
    case TRACEHOST_NUMBER: return "number " + std::to_string(reply.number);
    case TRACEHOST_STATUS: return std::to_string(reply.pid) + " " + status(reply.status);
    case TRACEHOST_HANDLED: return "handled " + std::to_string(reply.pid) + " " + status(reply.status);
    case TRACEHOST_STOPPED: return "LWP " + std::to_string(reply.lwp) + " stopped " + signal(reply.signal);
    case TRACEHOST_CAUGHT: return "caught " + signal(reply.signal);
    case TRACEHOST_ENDED: return status(reply.status);
    case TRACEHOST_ERROR: return "error " + error(reply.error);
    default: return name;
    }
}

// for GoogleTest and Catch2
inline std::ostream &operator<<(std::ostream &to, const tracehost_reply &reply) { return to << tracehost_words(reply); }

// A session that is recorded from its beginning, for a test. Nothing that is done for the record throws.
class tracehost_test : public tracehost_session, private tracehost_open_test {
public:
    explicit tracehost_test(std::string name, bool kill_on_debugger_exit = true)
        : tracehost_session(kill_on_debugger_exit), test(std::move(name))
    {
        lose_record = [](tracehost_session &session, const std::system_error &error) {
            static_cast<tracehost_test &>(session).tell(error);
        };
        try {
            artifacts.emplace(test);
            tracehost_crashes::enter(this);
            record_in(own(artifacts->scenario_file()), tracehost_artifacts::opened(artifacts->lines_now()));
        } catch (const std::exception &error) {
            tell(error);
        }
    }
    ~tracehost_test() override
    {
        if (artifacts)
            tracehost_crashes::leave(this);
        if (!artifacts || owner != getpid()) // a forked child, and the files are the parent's
            return;
        if (std::uncaught_exceptions() > exceptions)
            fail("an exception");
        try {
            artifacts->leave_trace();
            if (has_failed)
                artifacts->keep(test, message, step == unknown ? steps() : step);
            else
                artifacts->remove();
        } catch (const std::exception &error) {
            tell(error);
        }
    }
    tracehost_test(const tracehost_test &) = delete;
    tracehost_test &operator=(const tracehost_test &) = delete;

    // The test has failed. The first message and its step are on the page, with what explain() says. Any thread may call it; the
    // page of another one's failure is of the last step.
    void fail(const std::string &said, const char *file = nullptr, int line = 0)
    {
        const std::lock_guard<std::mutex> guard(failing);
        if (has_failed)
            return;
        has_failed = true;
        try {
            message = said + (file == nullptr ? "" : "\n" + std::string(file) + ":" + std::to_string(line));
            if (std::this_thread::get_id() != thread) // else the session might be in a call
                return;
            step = steps();
            message += "\n" + explain();
        } catch (const std::exception &) { // the message is enough
        }
    }

private:
    static constexpr std::size_t unknown = static_cast<std::size_t>(-1);

    // a second descriptor of the file, whose lock stays with the first
    static int own(int file)
    {
        const int copied = fcntl(file, F_DUPFD_CLOEXEC, 0);
        if (copied < 0)
            throw std::system_error(errno, std::generic_category());
        return copied;
    }

    void end_by_signal(const char *said, bool goes_on) noexcept override
    {
        if (owner != getpid())
            return;
        if (goes_on || artifacts->rename_all(100) != 0) {
            say("scenario: ", artifacts->scenario_now().c_str());
            say("lines:    ", artifacts->lines_now().c_str());
            return;
        }
        say("scenario: ", artifacts->scenario().c_str());
        say("lines:    ", artifacts->lines().c_str());
        char digits[24] = "", *digit = digits + sizeof digits - 1;
        for (std::size_t rest = step == unknown ? steps() : step; rest > 0; rest /= 10)
            *--digit = static_cast<char>('0' + rest % 10);
        if (*digit != '\0') {
            tracehost_artifacts::words_of_command words;
            artifacts->page_command(words, test.c_str(), said, digit);
            run(words);
        }
        const char *page = artifacts->page().c_str();
        say("page:     ", access(page, F_OK) == 0 ? page : "none");
        say("to go on from here: tracehost-debug ", artifacts->scenario().c_str());
    }

    std::size_t steps() const { return recording ? recording->steps() : lost_at; }

    void tell(const std::exception &error) noexcept
    try {
        lost_at = steps();
        tracehost_artifacts::say(test + ": not recorded from step " + std::to_string(lost_at + 1) + " on: " + error.what());
    } catch (const std::exception &) { // no memory for the words
    }

    std::string test, message;
    std::optional<tracehost_artifacts> artifacts;
    const int exceptions = std::uncaught_exceptions();
    const pid_t owner = getpid();
    const std::thread::id thread = std::this_thread::get_id();
    std::mutex failing;
    bool has_failed = false;
    std::size_t step = unknown, lost_at = 0;
};

#endif
