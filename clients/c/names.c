/* Names and numbers: tracehost_client.h describes each call. */
#define _POSIX_C_SOURCE 200809L

#include "internal.h"

#include <stdio.h>
#include <string.h>

/* tools/format names */
static const struct thp_name REQUESTS[] = {
    {"PT_TRACE_ME", TH_PT_TRACE_ME},
    {"PT_CONTINUE", TH_PT_CONTINUE},
    {"PT_KILL", TH_PT_KILL},
    {"PT_STEP", TH_PT_STEP},
    {"PT_ATTACH", TH_PT_ATTACH},
    {"PT_DETACH", TH_PT_DETACH},
    {"PT_LWPINFO", TH_PT_LWPINFO},
    {"PT_GETNUMLWPS", TH_PT_GETNUMLWPS},
    {"PT_GETLWPLIST", TH_PT_GETLWPLIST},
    {"PT_SUSPEND", TH_PT_SUSPEND},
    {"PT_RESUME", TH_PT_RESUME},
    {"PT_TO_SCE", TH_PT_TO_SCE},
    {"PT_TO_SCX", TH_PT_TO_SCX},
    {"PT_SYSCALL", TH_PT_SYSCALL},
    {"PT_FOLLOW_FORK", TH_PT_FOLLOW_FORK},
    {"PT_LWP_EVENTS", TH_PT_LWP_EVENTS},
    {"PT_GET_EVENT_MASK", TH_PT_GET_EVENT_MASK},
    {"PT_SET_EVENT_MASK", TH_PT_SET_EVENT_MASK},
};

static const struct thp_name EVENTS[] = {
    {"PTRACE_EXEC", TH_PTRACE_EXEC},
    {"PTRACE_SCE", TH_PTRACE_SCE},
    {"PTRACE_SCX", TH_PTRACE_SCX},
    {"PTRACE_FORK", TH_PTRACE_FORK},
    {"PTRACE_LWP", TH_PTRACE_LWP},
    {"PTRACE_VFORK", TH_PTRACE_VFORK},
};

static const struct thp_name STOP_FLAGS[] = {
    {"PL_FLAG_SCE", TH_PL_FLAG_SCE},
    {"PL_FLAG_SCX", TH_PL_FLAG_SCX},
    {"PL_FLAG_EXEC", TH_PL_FLAG_EXEC},
    {"PL_FLAG_FORKED", TH_PL_FLAG_FORKED},
    {"PL_FLAG_CHILD", TH_PL_FLAG_CHILD},
    {"PL_FLAG_BORN", TH_PL_FLAG_BORN},
    {"PL_FLAG_EXITED", TH_PL_FLAG_EXITED},
    {"PL_FLAG_VFORKED", TH_PL_FLAG_VFORKED},
    {"PL_FLAG_VFORK_DONE", TH_PL_FLAG_VFORK_DONE},
};

static const struct thp_name OPTIONS[] = {
    {"WNOHANG", TH_WNOHANG},
    {"WUNTRACED", TH_WUNTRACED},
    {"WCONTINUED", TH_WCONTINUED},
};

static const struct thp_name ACTIONS[] = {
    {"default", TH_SIG_DFL},
    {"ignore", TH_SIG_IGN},
    {"catch", TH_SIG_CATCH},
};

static const struct thp_name DECISIONS[] = {
    {"decline", TH_DECLINE},
    {"leave", TH_LEAVE},
    {"continue", TH_CONTINUE},
    {"detach", TH_DETACH},
    {"kill", TH_KILL},
};

static const struct thp_name CALLS[] = {
    {"exit", TH_CALL_EXIT},
    {"fork", TH_CALL_FORK},
    {"vfork", TH_CALL_VFORK},
    {"exec", TH_CALL_EXEC},
    {"thr_new", TH_CALL_THR_NEW},
    {"thr_exit", TH_CALL_THR_EXIT},
    {"other", TH_CALL_OTHER},
};
/* end */

const struct thp_table thp_requests = {REQUESTS, COUNT(REQUESTS)};
const struct thp_table thp_events = {EVENTS, COUNT(EVENTS)};
const struct thp_table thp_stop_flags = {STOP_FLAGS, COUNT(STOP_FLAGS)};
const struct thp_table thp_options = {OPTIONS, COUNT(OPTIONS)};
const struct thp_table thp_actions = {ACTIONS, COUNT(ACTIONS)};
const struct thp_table thp_decisions = {DECISIONS, COUNT(DECISIONS)};
const struct thp_table thp_calls = {CALLS, COUNT(CALLS)};

/* the model's errno: its name, the host system's number, FreeBSD's, and the words of FreeBSD's strerror(3) */
struct error {
    const char *name;
    int host, freebsd;
    const char *words;
};

/* tools/format errors and signals */
static const struct error ERRORS[] = {
    {"EPERM", EPERM, TH_EPERM, "Operation not permitted"},
    {"ESRCH", ESRCH, TH_ESRCH, "No such process"},
    {"ECHILD", ECHILD, TH_ECHILD, "No child processes"},
    {"ENOMEM", ENOMEM, TH_ENOMEM, "Cannot allocate memory"},
    {"EBUSY", EBUSY, TH_EBUSY, "Device busy"},
    {"EINVAL", EINVAL, TH_EINVAL, "Invalid argument"},
    {"EAGAIN", EAGAIN, TH_EAGAIN, "Resource temporarily unavailable"},
};

/* clang-format off */
static const char *const SIGNALS[] = {
    "SIGHUP", "SIGINT", "SIGQUIT", "SIGILL", "SIGTRAP", "SIGABRT", "SIGEMT", "SIGFPE", "SIGKILL", "SIGBUS", "SIGSEGV",
    "SIGSYS", "SIGPIPE", "SIGALRM", "SIGTERM", "SIGURG", "SIGSTOP", "SIGTSTP", "SIGCONT", "SIGCHLD", "SIGTTIN", "SIGTTOU",
    "SIGIO", "SIGXCPU", "SIGXFSZ", "SIGVTALRM", "SIGPROF", "SIGWINCH", "SIGINFO", "SIGUSR1", "SIGUSR2",
};
/* clang-format on */
/* end */

const char *th_signame(int sig) { return sig >= 1 && (size_t)sig <= COUNT(SIGNALS) ? SIGNALS[sig - 1] : NULL; }

int th_freebsd_errno(int error)
{
    for (size_t i = 0; i < COUNT(ERRORS); i++)
        if (ERRORS[i].host == error)
            return ERRORS[i].freebsd;
    return 0;
}

const char *th_strerror(int error)
{
    for (size_t i = 0; i < COUNT(ERRORS); i++)
        if (ERRORS[i].host == error)
            return ERRORS[i].words;
    switch (error) {
    case TH_EHELD: return "The caller or the LWP doesn't run, and the step isn't made";
    case TH_EREFUSED: return "Refused: what was sent is no step";
    case TH_ERECORD: return "The step can't be recorded, and the session has ended";
    case EFAULT: return "Bad address";
    case ETIMEDOUT: return "Operation timed out";
    case EPIPE: return "The session has ended";
    default: return strerror(error);
    }
}

void thp_append(char *text, size_t size, size_t *length, const char *more)
{
    size_t added = strlen(more);
    if (*length + 1 < size) {
        size_t room = size - 1 - *length, kept = added < room ? added : room;
        memcpy(text + *length, more, kept);
        text[*length + kept] = '\0';
    }
    *length += added;
}

static int join_names(const struct thp_table *table, int flags, char *text, size_t size)
{
    size_t length = 0;
    int unnamed = flags & ~thp_all_of(table);
    char digits[16];
    if (size > 0)
        text[0] = '\0';
    for (size_t i = 0; i < table->count; i++)
        if (flags & table->names[i].value) {
            thp_append(text, size, &length, length > 0 ? "+" : "");
            thp_append(text, size, &length, table->names[i].name);
        }
    if (unnamed != 0) {
        snprintf(digits, sizeof digits, "0x%x", (unsigned)unnamed);
        thp_append(text, size, &length, length > 0 ? "+" : "");
        thp_append(text, size, &length, digits);
    }
    if (flags == 0)
        thp_append(text, size, &length, "none");
    return (int)length;
}

int th_flagnames(int flags, char *text, size_t size) { return join_names(&thp_stop_flags, flags, text, size); }

int th_eventnames(int mask, char *text, size_t size) { return join_names(&thp_events, mask, text, size); }

const char *thp_name_of(const struct thp_table *table, int value)
{
    for (size_t i = 0; i < table->count; i++)
        if (table->names[i].value == value)
            return table->names[i].name;
    return NULL;
}

int thp_all_of(const struct thp_table *table)
{
    int all = 0;
    for (size_t i = 0; i < table->count; i++)
        all |= table->names[i].value;
    return all;
}

int thp_errno_numbered(unsigned freebsd)
{
    for (size_t i = 0; i < COUNT(ERRORS); i++)
        if ((unsigned)ERRORS[i].freebsd == freebsd)
            return ERRORS[i].host;
    return 0;
}

const char *thp_error_name(int error)
{
    for (size_t i = 0; i < COUNT(ERRORS); i++)
        if (ERRORS[i].host == error)
            return ERRORS[i].name;
    return NULL;
}
