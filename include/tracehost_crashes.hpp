// Signals that end a program while tests are open: the tests have failed. For tracehost_test.hpp.
//
// The handler calls only what it may call, and hands the signal on to what the program did with it before.
#ifndef TRACEHOST_CRASHES_HPP
#define TRACEHOST_CRASHES_HPP

#include "tracehost_artifacts.hpp"

#include <array>
#include <atomic>
#include <cstring>

// A test that is open.
class tracehost_open_test {
public:
    virtual ~tracehost_open_test() = default;
    // The program is ended by a signal, which is said so; it `goes_on` if the program handles the signal itself.
    virtual void end_by_signal(const char *said, bool goes_on) noexcept = 0;

protected:
    // for `end_by_signal`
    static void say(const char *label, const char *text) noexcept
    {
        for (const char *part : {"tracehost: ", label, text, "\n"})
            if (write(STDERR_FILENO, part, std::strlen(part)) < 0)
                return;
    }
    static void run(tracehost_artifacts::words_of_command &words) noexcept
    {
#if defined(__GLIBC__) && (__GLIBC__ > 2 || __GLIBC_MINOR__ >= 34) // others have no fork(2) for handlers
        const pid_t child = _Fork();
        if (child == 0) {
            setpgid(0, 0);
            dup2(STDERR_FILENO, STDOUT_FILENO);
            execve(words[0], const_cast<char *const *>(words), environ);
            _exit(127);
        }
        if (child > 0)
            tracehost_artifacts::wait_for(child);
#else
        static_cast<void>(words);
#endif
    }
};

class tracehost_crashes {
public:
    // from now on the test has failed if a signal ends the program
    static void enter(tracehost_open_test *test)
    {
        const std::lock_guard<std::mutex> guard(mutex());
        place *free = places;
        while (free != nullptr && free->test != nullptr)
            free = free->next;
        if (free == nullptr) {
            free = new place{nullptr, places}; // it stays, for the handler
            places = free;
        }
        free->test = test;
        static const restorer at_end;
        for (std::size_t nth = 0; nth < watched.size(); nth++)
            watch(nth);
    }
    static void leave(const tracehost_open_test *test)
    {
        const std::lock_guard<std::mutex> guard(mutex());
        for (place *one = places; one != nullptr; one = one->next)
            if (one->test == test)
                one->test = nullptr;
    }

private:
    struct place {
        std::atomic<tracehost_open_test *> test;
        place *next;
    };
    struct signal_name {
        int signal;
        const char *said;
    };
    static constexpr std::array<signal_name, 10> watched{{{SIGABRT, "SIGABRT, as by a failed assert"}, {SIGSEGV, "SIGSEGV"},
        {SIGBUS, "SIGBUS"}, {SIGILL, "SIGILL"}, {SIGFPE, "SIGFPE"}, {SIGTERM, "SIGTERM"}, {SIGINT, "SIGINT"}, {SIGHUP, "SIGHUP"},
        {SIGQUIT, "SIGQUIT"}, {SIGALRM, "SIGALRM"}}};

    static void on_signal(int signal, siginfo_t *info, void *)
    {
        const int error = errno;
        const bool is_first = !is_ending.exchange(true);
        std::size_t nth = 0;
        while (watched[nth].signal != signal)
            nth++;
        for (place *one = is_first ? places.load() : nullptr; one != nullptr; one = one->next)
            if (tracehost_open_test *test = one->test)
                test->end_by_signal(watched[nth].said, before[nth].sa_handler != SIG_DFL);
        sigaction(signal, &before[nth], nullptr);
        is_watched[nth] = false;
        const bool is_fault = signal == SIGSEGV || signal == SIGBUS || signal == SIGILL || signal == SIGFPE;
        if (!is_fault || info->si_code <= 0) // else it comes again by itself, as from a kernel
            raise(signal);
        is_ending = false;
        errno = error;
    }

    // Handles a signal, unless it is ignored, or handled so by now: a framework may have taken the handler away.
    static void watch(std::size_t nth)
    {
        struct sigaction mine {}, now {};
        mine.sa_sigaction = on_signal;
        mine.sa_flags = SA_SIGINFO | SA_ONSTACK;
        if (sigaction(watched[nth].signal, nullptr, &now) != 0 || now.sa_sigaction == on_signal || now.sa_handler == SIG_IGN)
            return;
        before[nth] = now;
        is_watched[nth] = sigaction(watched[nth].signal, &mine, nullptr) == 0;
    }

    // This code goes: the program ends, or unloads it.
    struct restorer {
        ~restorer()
        {
            struct sigaction now {};
            for (std::size_t nth = 0; nth < watched.size(); nth++)
                if (is_watched[nth] && sigaction(watched[nth].signal, nullptr, &now) == 0 && now.sa_sigaction == on_signal)
                    sigaction(watched[nth].signal, &before[nth], nullptr);
        }
    };

    static std::mutex &mutex()
    {
        static auto *made = new std::mutex; // a test may end after static objects
        return *made;
    }

    inline static std::atomic<place *> places{nullptr};
    inline static std::atomic<bool> is_ending{false};
    inline static std::array<std::atomic<bool>, watched.size()> is_watched{};
    // what the program did with the signals before
    inline static std::array<struct sigaction, watched.size()> before{};
};

#endif
