/* The wrappers of the calls for signals. */
#ifdef __linux__
#define _GNU_SOURCE
#endif
#include "log-calls.h"
#include <errno.h>

int kill(pid_t pid, int sig)
{
    struct call call;
    int result;

    if (ask(&call, "kill")) {
        number_word(&call.line, "pid", pid);
        signal_word(&call.line, "signal", sig);
    }
    asked(&call);
    result = next_kill(pid, sig);
    tell_result(&call, result);
    return (result);
}

static void ask_signal(struct call *call, const char *name, int sig)
{
    if (ask(call, name))
        signal_word(&call->line, "signal", sig);
    asked(call);
}

int raise(int sig)
{
    struct call call;
    int result;

    ask_signal(&call, "raise", sig);
    result = next_raise(sig);
    tell_result(&call, result);
    return (result);
}

int pthread_kill(pthread_t thread, int sig)
{
    struct call call;
    int error;

    ask_signal(&call, pthread_equal(thread, pthread_self()) ? "raise" : "pthread_kill", sig);
    error = next_pthread_kill(thread, sig);
    tell_error(&call, error);
    return (error);
}

void abort(void)
{
    struct call call;

    ask(&call, "abort");
    asked(&call);
    next_abort();
    __builtin_unreachable();
}

static const char *action_of(void (*handler)(int))
{
    return (handler == SIG_DFL ? "default" : handler == SIG_IGN ? "ignore" : "catch");
}

static void ask_action(struct call *call, int sig, const char *action)
{
    if (ask(call, "sigaction")) {
        signal_word(&call->line, "signal", sig);
        word(&call->line, "action");
        put(&call->line, action);
    }
    asked(call);
}

int sigaction(int sig, const struct sigaction *act, struct sigaction *old)
{
    struct call call;
    int result;

    ask_action(&call, sig, act == NULL ? "-" : action_of(act->sa_handler));
    result = next_sigaction(sig, act, old);
    tell_result(&call, result);
    return (result);
}

void (*signal(int sig, void (*handler)(int)))(int)
{
    struct call call;
    void (*old)(int);

    ask_action(&call, sig, action_of(handler));
    old = next_signal(sig, handler);
    tell_result(&call, old == SIG_ERR ? -1 : 0);
    return (old);
}

static void ask_mask(struct call *call, int how, const sigset_t *set)
{
    static const struct name hows[] = {{SIG_BLOCK, "block"}, {SIG_UNBLOCK, "unblock"}, {SIG_SETMASK, "set"}, {0, NULL}};

    if (ask(call, "sigprocmask")) {
        word(&call->line, "how");
        if (set == NULL)
            put(&call->line, "-");
        else {
            put_named(&call->line, hows, how);
            signals_word(&call->line, "signals", set);
        }
    }
    asked(call);
}

int sigprocmask(int how, const sigset_t *set, sigset_t *old)
{
    struct call call;
    int result;

    ask_mask(&call, how, set);
    result = next_sigprocmask(how, set, old);
    tell_result(&call, result);
    return (result);
}

int pthread_sigmask(int how, const sigset_t *set, sigset_t *old)
{
    struct call call;
    int error;

    ask_mask(&call, how, set);
    error = next_pthread_sigmask(how, set, old);
    tell_error(&call, error);
    return (error);
}

static void ask_set(struct call *call, const char *name, const sigset_t *set)
{
    if (ask(call, name))
        signals_word(&call->line, "signals", set);
    asked(call);
}

int sigsuspend(const sigset_t *set)
{
    struct call call;
    int result;

    ask_set(&call, "sigsuspend", set);
    result = next_sigsuspend(set);
    tell_result(&call, result);
    return (result);
}

static void tell_taken(struct call *call, int sig)
{
    if (tell(call, sig > 0 ? 0 : -1) && sig > 0)
        signal_word(&call->line, "signal", sig);
    told(call);
}

int sigtimedwait(const sigset_t *set, siginfo_t *info, const struct timespec *limit)
{
    struct call call;
    int sig;

    ask_set(&call, "sigwait", set);
    sig = next_sigtimedwait(set, info, limit);
    tell_taken(&call, sig);
    return (sig);
}

int sigwaitinfo(const sigset_t *set, siginfo_t *info) { return (sigtimedwait(set, info, NULL)); }

int sigwait(const sigset_t *set, int *sig)
{
    struct call call;
    int error;

    ask_set(&call, "sigwait", set);
    error = next_sigwait(set, sig);
    if (error == 0)
        tell_taken(&call, *sig);
    else
        tell_error(&call, error);
    return (error);
}
