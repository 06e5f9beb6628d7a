/* Signals that end the program while tests are open: the tests have failed. A handler calls only what it may call. */
#define _POSIX_C_SOURCE 200809L

#include "internal.h"

#include <signal.h>
#include <string.h>
#include <sys/wait.h>
#include <unistd.h>

#ifndef SA_ONSTACK /* of XSI, for a program that has a stack for signals */
#define SA_ONSTACK 0
#endif

extern char **environ;

static const struct {
    int signal;
    const char *said;
} watched[] = {{SIGABRT, "SIGABRT, as by a failed assert"}, {SIGSEGV, "SIGSEGV"}, {SIGBUS, "SIGBUS"}, {SIGILL, "SIGILL"},
    {SIGFPE, "SIGFPE"}, {SIGTERM, "SIGTERM"}, {SIGINT, "SIGINT"}, {SIGHUP, "SIGHUP"}, {SIGQUIT, "SIGQUIT"}, {SIGALRM, "SIGALRM"}};

/* what the program did with these before */
static struct sigaction before[COUNT(watched)];
static volatile sig_atomic_t is_watched[COUNT(watched)], is_ending;

/* fork(2) without handlers of pthread_atfork(3), so that a signal's handler may call it */
#if defined(__GLIBC__) && (__GLIBC__ > 2 || __GLIBC_MINOR__ >= 34)
pid_t _Fork(void);
#define HAS_FORK_FOR_SIGNALS 1
#else
#define HAS_FORK_FOR_SIGNALS 0
#endif

static void say_in_handler(const char *label, const char *text)
{
    const char *parts[] = {"tracehost: ", label, text, "\n"};
    for (size_t i = 0; i < COUNT(parts); i++)
        if (write(STDERR_FILENO, parts[i], strlen(parts[i])) < 0)
            return;
}

#if HAS_FORK_FOR_SIGNALS
static void make_page_in_handler(const struct thp_test *test, const char *message, const char *step)
{
    const char *argv[THP_PAGE_WORDS];
    thp_page_command(argv, &test->artifacts, test->name, message, step);
    pid_t child = _Fork();
    if (child == 0) {
        setpgid(0, 0);
        dup2(STDERR_FILENO, STDOUT_FILENO);
        execve(argv[0], (char *const *)argv, environ);
        _exit(127);
    }
    if (child > 0)
        thp_wait_for_page(child);
}
#else
static void make_page_in_handler(const struct thp_test *test, const char *message, const char *step)
{
    (void)test, (void)message, (void)step;
}
#endif

/* If the program handles the signal itself, it may go on, so the files keep the names of a test that runs. */
static void leave_in_handler(const struct thp_test *test, const char *message, int goes_on)
{
    const struct thp_artifacts *a = &test->artifacts;
    size_t step = test->has_failed ? test->step : test->host->steps;
    char digits[24] = "", *digit = digits + sizeof digits - 1;
    for (*digit = '\0'; step > 0; step /= 10)
        *--digit = (char)('0' + step % 10);
    if (goes_on || thp_keep_artifacts(a, 1) != 0) {
        say_in_handler("scenario: ", a->scenario_now);
        say_in_handler("lines:    ", a->lines_now);
        return;
    }
    say_in_handler("scenario: ", a->scenario);
    say_in_handler("lines:    ", a->lines);
    if (*digit != '\0')
        make_page_in_handler(test, test->has_failed ? test->message : message, digit);
    say_in_handler("page:     ", access(a->page, F_OK) == 0 ? a->page : "none");
    say_in_handler("to go on from here: tracehost-debug ", a->scenario);
}

/* Hands the signal on to what the program did with it before. */
static void on_signal(int signal, siginfo_t *info, void *context)
{
    size_t nth = 0;
    int error = errno, is_first = !is_ending;
    (void)context;
    is_ending = 1;
    while (watched[nth].signal != signal)
        nth++;
    for (const struct thp_test *test = is_first ? thp_tests : NULL; test != NULL; test = test->next)
        if (test->is_open && test->file.number >= 0 && test->owner == getpid())
            leave_in_handler(test, watched[nth].said, before[nth].sa_handler != SIG_DFL);
    sigaction(signal, &before[nth], NULL);
    is_watched[nth] = 0;
    int is_fault = signal == SIGSEGV || signal == SIGBUS || signal == SIGILL || signal == SIGFPE;
    if (!is_fault || info->si_code <= 0) /* else it comes again by itself, as from a kernel */
        raise(signal);
    is_ending = 0;
    errno = error;
}

/* Handles a signal, unless it is ignored, or handled so by now: a framework may have taken the handler away. */
static void watch(size_t nth)
{
    struct sigaction mine = {.sa_sigaction = on_signal, .sa_flags = SA_SIGINFO | SA_ONSTACK}, now;
    if (sigaction(watched[nth].signal, NULL, &now) != 0 || now.sa_sigaction == on_signal || now.sa_handler == SIG_IGN)
        return;
    before[nth] = now;
    is_watched[nth] = sigaction(watched[nth].signal, &mine, NULL) == 0;
}

void thp_watch_signals(void)
{
    for (size_t nth = 0; nth < COUNT(watched); nth++)
        watch(nth);
}

/* This code goes: the program ends, or unloads it. */
#if defined(__GNUC__)
__attribute__((destructor)) static void unwatch_all(void)
{
    struct sigaction now;
    for (size_t nth = 0; nth < COUNT(watched); nth++)
        if (is_watched[nth] && sigaction(watched[nth].signal, NULL, &now) == 0 && now.sa_sigaction == on_signal)
            sigaction(watched[nth].signal, &before[nth], NULL);
}
#endif
