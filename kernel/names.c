/* Names and numbers: the model's are FreeBSD's. */
#include <errno.h>
#include <signal.h>
#include <stdio.h>
#include <stdlib.h>
#include <string.h>
#include <sys/wait.h>
#include "play.h"

#ifndef SIGEMT
#define SIGEMT 0
#endif
#ifndef SIGINFO
#define SIGINFO 0
#endif

static const int native_signals[MODEL_SIGNALS] = {0, SIGHUP, SIGINT, SIGQUIT, SIGILL, SIGTRAP, SIGABRT, SIGEMT, SIGFPE, SIGKILL,
    SIGBUS, SIGSEGV, SIGSYS, SIGPIPE, SIGALRM, SIGTERM, SIGURG, SIGSTOP, SIGTSTP, SIGCONT, SIGCHLD, SIGTTIN, SIGTTOU, SIGIO,
    SIGXCPU, SIGXFSZ, SIGVTALRM, SIGPROF, SIGWINCH, SIGINFO, SIGUSR1, SIGUSR2};

int native_signal(long number)
{
    enum { NO_SIGNAL = 1000 };
    if (number < 0 || number >= MODEL_SIGNALS)
        return NO_SIGNAL;
    return number > 0 && native_signals[number] == 0 ? -1 : native_signals[number];
}

int model_signal(int signal)
{
    for (int number = 1; number < MODEL_SIGNALS; number++)
        if (native_signals[number] == signal)
            return number;
    return 0;
}

/* A wait status in the model's numbers; FreeBSD's layout of the word. */
long model_status(int status)
{
    enum { CONTINUED = 19, STOPPED = 127 };
    if (WIFCONTINUED(status))
        return CONTINUED;
    if (WIFEXITED(status))
        return WEXITSTATUS(status) * 256L;
    if (WIFSTOPPED(status))
        return model_signal(WSTOPSIG(status)) * 256L + STOPPED;
    return model_signal(WTERMSIG(status));
}

struct bit {
    const char *name;
    unsigned bit;
};
static const struct bit flags[] = {{"PL_FLAG_SCE", 0x4}, {"PL_FLAG_SCX", 0x8}, {"PL_FLAG_EXEC", 0x10}, {"PL_FLAG_FORKED", 0x40},
    {"PL_FLAG_CHILD", 0x80}, {"PL_FLAG_BORN", 0x100}, {"PL_FLAG_EXITED", 0x200}, {"PL_FLAG_VFORKED", 0x400},
    {"PL_FLAG_VFORK_DONE", 0x800}, {NULL, 0}};
static const struct bit events[] = {{"PTRACE_EXEC", 0x1}, {"PTRACE_SCE", 0x2}, {"PTRACE_SCX", 0x4}, {"PTRACE_FORK", 0x8},
    {"PTRACE_LWP", 0x10}, {"PTRACE_VFORK", 0x20}, {NULL, 0}};

static void bits_text(const struct bit *bits, unsigned set, char *text, size_t size)
{
    size_t used = 0;
    snprintf(text, size, "none");
    for (; bits->name != NULL; bits++)
        if ((set & bits->bit) != 0 && used < size)
            used += (size_t)snprintf(text + used, size - used, "%s%s", used > 0 ? "+" : "", bits->name);
}

void flags_text(int set, char *text, size_t size) { bits_text(flags, (unsigned)set, text, size); }
void events_text(unsigned set, char *text, size_t size) { bits_text(events, set, text, size); }

unsigned event_of_word(const char *word)
{
    for (const struct bit *event = events; event->name != NULL; event++)
        if (strcmp(event->name, word) == 0)
            return event->bit;
    return strcmp(word, "PTRACE_SYSCALL") == 0 ? event_of_word("PTRACE_SCE") | event_of_word("PTRACE_SCX") : 0;
}

/* An error that the model doesn't have has the system's number. */
void error_reply(int error, char *text, size_t size)
{
    static const struct {
        int error;
        const char *name;
        int number;
    } errors[] = {{EPERM, "EPERM", 1}, {ESRCH, "ESRCH", 3}, {ECHILD, "ECHILD", 10}, {EBUSY, "EBUSY", 16}, {EINVAL, "EINVAL", 22},
        {EAGAIN, "EAGAIN", 35}, {EINTR, "EINTR", EINTR}, {EIO, "EIO", EIO}, {ENOMEM, "ENOMEM", ENOMEM}, {EACCES, "EACCES", EACCES},
        {EFAULT, "EFAULT", EFAULT}, {ENOSYS, "ENOSYS", ENOSYS}, {EDEADLK, "EDEADLK", EDEADLK}};
    for (size_t i = 0; i < sizeof errors / sizeof *errors; i++)
        if (errors[i].error == error) {
            snprintf(text, size, "error %s %d", errors[i].name, errors[i].number);
            return;
        }
    snprintf(text, size, "error %d", error);
}

/* Rising numbers joined by commas; `empty` if there is none. */
void signals_text(unsigned set, const char *empty, char *text, size_t size)
{
    size_t used = 0;
    snprintf(text, size, "%s", empty);
    for (int number = 1; number < MODEL_SIGNALS; number++)
        if ((set >> number & 1) != 0 && used < size)
            used += (size_t)snprintf(text + used, size - used, used > 0 ? ",%d" : "%d", number);
}

long signal_of_word(const char *word)
{
    static const char *const names[MODEL_SIGNALS] = {"", "HUP", "INT", "QUIT", "ILL", "TRAP", "ABRT", "EMT", "FPE", "KILL", "BUS",
        "SEGV", "SYS", "PIPE", "ALRM", "TERM", "URG", "STOP", "TSTP", "CONT", "CHLD", "TTIN", "TTOU", "IO", "XCPU", "XFSZ",
        "VTALRM", "PROF", "WINCH", "INFO", "USR1", "USR2"};
    char *end;
    long number = strtol(word, &end, 10);
    if (end != word && *end == 0 && number >= 0)
        return number;
    for (number = 1; number < MODEL_SIGNALS && strncmp(word, "SIG", 3) == 0; number++)
        if (strcmp(word + 3, names[number]) == 0)
            return number;
    return -1;
}
