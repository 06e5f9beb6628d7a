// Tests without a framework, in the ways that their names say. tests/python/test_failed_tests.py looks at what they leave.
//
//     failing CASE [NAME]
//
// Its status is 1 if a test failed, and 0 if all passed.
#include <tracehost_test.hpp>

#include "failing.hpp"

#include <atomic>
#include <functional>
#include <iostream>
#include <map>
#include <stdexcept>
#include <thread>

namespace {

int run(const std::string &name, std::uint32_t wanted)
{
    tracehost_test test(name);
    if (signal_after_step(test) == wanted)
        return 0;
    test.fail("signal_after_step(test) == wanted", __FILE__, __LINE__);
    return 1;
}

int passes(const std::string &name) { return run(name, sigsegv); }

int fails(const std::string &name) { return run(name, sigtrap); }

int twice(const std::string &name) { return fails(name) + fails(name) == 2; }

int throws(const std::string &name)
{
    try {
        tracehost_test test(name);
        signal_after_step(test);
        throw std::runtime_error("the debugger is lost");
    } catch (const std::runtime_error &) {
        return 1;
    }
}

int threads(const std::string &name)
{
    std::vector<std::thread> all;
    std::vector<int> failed(8);
    for (int &one : failed)
        all.emplace_back([&] { one = fails(name); });
    for (std::thread &thread : all)
        thread.join();
    return std::count(failed.begin(), failed.end(), 1) == 8;
}

// The child goes on with a copy of the session, and fails; the parent passes.
int forks(const std::string &name)
{
    int status = 0;
    {
        tracehost_test test(name);
        const pid_t child = fork();
        if (child != 0)
            waitpid(child, &status, 0);
        else if (signal_after_step(test) != sigtrap)
            test.fail("the child");
        if (child != 0)
            return WEXITSTATUS(status) == 7 && signal_after_step(test) == sigsegv ? 0 : 1;
    }
    _exit(7); // the child, whose session is gone
}

// It closes the record's files, and opens its own, which get their numbers and stay empty.
int closes_files(const std::string &name)
{
    std::vector<std::FILE *> own;
    struct stat status;
    bool is_whole = true;
    {
        tracehost_test test(name);
        for (int file = 3; file < 64; file++)
            if (fstat(file, &status) == 0 && S_ISREG(status.st_mode) && close(file) == 0) {
                own.push_back(std::tmpfile());
                is_whole &= own.back() != nullptr && fileno(own.back()) == file;
            }
        is_whole &= signal_after_step(test) == sigsegv;
    }
    for (std::FILE *file : own)
        is_whole &= fstat(fileno(file), &status) == 0 && status.st_size == 0 && std::fclose(file) == 0;
    return !is_whole;
}

// Nothing can be written on standard error, and streams throw then.
int loses_standard_error(const std::string &name)
{
    std::cerr.exceptions(std::ios::badbit | std::ios::failbit);
    const int full = open("/dev/full", O_WRONLY);
    dup2(full, STDERR_FILENO);
    return fails(name) + passes("another") == 1 ? 0 : 1;
}

// By abort(3), while another test has ended.
int aborts(const std::string &name)
{
    tracehost_test test(name);
    signal_after_step(test);
    {
        tracehost_test other("other");
        signal_after_step(other);
    }
    std::abort();
}

// $TEST_SIGNAL ends it: a number, or "fault"; it waits for one by "wait", and without it, it passes.
int is_signalled(const std::string &name)
{
    tracehost_test test(name);
    const char *given = std::getenv("TEST_SIGNAL");
    const std::string how = given == nullptr ? "" : given;
    signal_after_step(test);
    if (how == "fault")
        *reinterpret_cast<volatile char *>(8) = 1;
    else if (how == "wait")
        for (std::puts("waits"), std::fflush(stdout);;)
            pause();
    else if (!how.empty())
        kill(getpid(), std::stoi(how));
    return 0;
}

// Which tests fail, by $FAILING: all, none, or those with an even number.
bool is_to_fail(int number)
{
    const char *failing = std::getenv("FAILING");
    return failing == nullptr ? number % 2 == 0 : std::string(failing) == "all";
}

// So many tests, in threads. The test many.N makes 1 to 5 steps.
int many(const std::string &count)
{
    std::vector<std::thread> all;
    std::atomic<bool> failed{false};
    for (int first = 0; first < 8; first++)
        all.emplace_back([first, count = std::stoi(count), &failed] {
            for (int number = first; number < count; number += 8) {
                tracehost_test test("many." + std::to_string(number));
                for (int step = 0; step <= number % 5; step++)
                    test.call(tracehost_spawn, 1001);
                if (!is_to_fail(number))
                    continue;
                test.fail("it is to fail");
                failed = true;
            }
        });
    for (std::thread &thread : all)
        thread.join();
    return failed;
}

int steps(const std::string &name)
{
    tracehost_test test(name);
    test.fail("after " + std::to_string(make_steps(test)) + " steps");
    return 1;
}

int no_step(const std::string &name)
{
    tracehost_test test(name);
    test.fail("before any step");
    return 1;
}

} // namespace

int main(int argc, char **argv)
{
    const std::map<std::string, std::function<int(const std::string &)>> cases = {{"passes", passes}, {"fails", fails},
        {"twice", twice}, {"throws", throws}, {"threads", threads}, {"forks", forks}, {"no_step", no_step},
        {"aborts", aborts}, {"many", many}, {"steps", steps}, {"is_signalled", is_signalled}, {"closes_files", closes_files}, {"loses_standard_error", loses_standard_error}};
    return argc < 2 ? 2 : cases.at(argv[1])(argv[argc > 2 ? 2 : 1]);
}
