/*
 * Tests of a small debugger, as a test suite of one's own has them: the debugger runs in a thread and blocks in its wait; the
 * test is the world, and makes the turns of the traced process.
 *
 *     cc -o test_suite test_suite.c $(pkg-config --variable=source tracehost-client) $(pkg-config --cflags --libs tracehost-client)
 *     ./test_suite [FOLDER]
 *
 * A test that fails leaves its session in the folder (th_test_begin). With PLANT=coalesce in the environment the debugger has
 * a fault: it reports a signal that comes twice once.
 */
#define _POSIX_C_SOURCE 200809L /* setenv(3) */

#include "tracehost_client.h"

#include <pthread.h>
#include <stdio.h>
#include <stdlib.h>
#include <string.h>

enum { USER = 1001, SECONDS = 1000 };

/* ---------------------------------------------------------------- the debugger under test: a log of what a process does */

struct debugger {
    th_host *host;
    th_caller self;
    th_pid target;
    int events; /* an event mask */
    int coalesces;
    int last; /* the last signal */
    int error;
    char log[512];
};

static void note(struct debugger *d, const char *what)
{
    size_t length = strlen(d->log);
    snprintf(d->log + length, sizeof d->log - length, "%s%s", length > 0 ? ", " : "", what);
}

/* A signal is logged and passed on, except SIGSTOP and SIGTRAP, which are the debugger's own. */
static int stopped(struct debugger *d, th_pid pid, int sig)
{
    char flags[160];
    struct th_lwpinfo info;
    if (th_ptrace(d->host, d->self, TH_PT_LWPINFO, pid, &info, (int)sizeof info) != 0)
        return -1;
    if (info.pl_flags != 0) {
        th_flagnames(info.pl_flags, flags, sizeof flags);
        note(d, flags);
        sig = 0;
    } else if (sig == TH_SIGSTOP || sig == TH_SIGTRAP) {
        sig = 0;
    } else {
        if (!d->coalesces || sig != d->last)
            note(d, th_signame(sig));
        d->last = sig;
    }
    return th_ptrace(d->host, d->self, TH_PT_CONTINUE, pid, NULL, sig);
}

static void ended(struct debugger *d, int status)
{
    char text[32];
    if (TH_WIFEXITED(status))
        snprintf(text, sizeof text, "exit %d", TH_WEXITSTATUS(status));
    else
        snprintf(text, sizeof text, "ended by %s", th_signame(TH_WTERMSIG(status)));
    note(d, text);
}

/* Attaches to the target, and logs what it does to its end. */
static void *trace(void *argument)
{
    struct debugger *d = argument;
    int status;
    th_pid pid;
    if (th_ptrace(d->host, d->self, TH_PT_ATTACH, d->target, NULL, 0) != 0 ||
        th_wait4_block(d->host, d->self, d->target, &status, 0, 10 * SECONDS) != d->target ||
        th_ptrace(d->host, d->self, TH_PT_SET_EVENT_MASK, d->target, &d->events, (int)sizeof d->events) != 0 ||
        th_ptrace(d->host, d->self, TH_PT_CONTINUE, d->target, NULL, 0) != 0) {
        d->error = errno;
        return NULL;
    }
    while ((pid = th_wait4_block(d->host, d->self, -1, &status, 0, 10 * SECONDS)) > 0) {
        if (!TH_WIFSTOPPED(status))
            ended(d, status);
        else if (stopped(d, pid, TH_WSTOPSIG(status)) != 0)
            break;
    }
    d->error = errno == ECHILD ? 0 : errno; /* ECHILD: nothing is left to trace */
    return NULL;
}

/* ---------------------------------------------------------------- the world: what the target does */

struct world {
    struct debugger debugger;
    th_host *host;
    th_lwpid lwp;
    pthread_t thread;
    char trouble[256]; /* the first fault of the world itself */
};

static void check(struct world *w, const char *what, int result)
{
    if (result != 0 && w->trouble[0] == '\0')
        snprintf(w->trouble, sizeof w->trouble, "%s: %s %s", what, th_strerror(errno), th_reason(w->host));
}

/* The debugger has done what it could: it is in its wait. */
static void settle(struct world *w) { check(w, "th_until_blocked", th_until_blocked(w->host, 1, 10 * SECONDS)); }

static void compute(struct world *w)
{
    settle(w);
    check(w, "compute", th_turn_compute(w->host, USER, w->lwp, NULL));
}

/* A signal is posted, met at a turn, passed on, and met again. */
static void raises(struct world *w, int sig)
{
    settle(w);
    check(w, "raise", th_turn_raise(w->host, USER, w->lwp, sig, NULL));
    compute(w);
}

static void calls(struct world *w, enum th_call call, unsigned code)
{
    settle(w);
    check(w, "enter", th_turn_enter(w->host, USER, w->lwp, call, code, NULL));
    settle(w);
    check(w, "leave", th_turn_leave(w->host, USER, w->lwp, NULL));
}

static void exits(struct world *w, unsigned code) { calls(w, TH_CALL_EXIT, code); }

/* ---------------------------------------------------------------- the tests */

static void exit_code(struct world *w) { exits(w, 3); }

static void signal_twice(struct world *w)
{
    raises(w, TH_SIGCHLD);
    raises(w, TH_SIGCHLD);
    exits(w, 0);
}

static void fatal_signal(struct world *w) { raises(w, TH_SIGSEGV); }

static void kill_signal(struct world *w)
{
    settle(w);
    check(w, "kill", th_kill(w->host, w->debugger.self, w->debugger.target, TH_SIGKILL));
}

static void caught_signal(struct world *w)
{
    th_caller target = {USER, w->debugger.target};
    settle(w);
    check(w, "sigaction", th_sigaction(w->host, target, TH_SIGTERM, TH_SIG_CATCH));
    raises(w, TH_SIGTERM);
    exits(w, 1);
}

static void blocked_signal(struct world *w)
{
    settle(w);
    check(w, "block", th_turn_block(w->host, USER, w->lwp, TH_SIGMASK(TH_SIGUSR1), NULL));
    raises(w, TH_SIGUSR1);
    exits(w, 0);
}

static void system_call(struct world *w)
{
    calls(w, TH_CALL_OTHER, 4);
    exits(w, 0);
}

static void exec(struct world *w)
{
    calls(w, TH_CALL_EXEC, 0);
    exits(w, 0);
}

/* both are pending before the target's next turn */
static void two_signals(struct world *w)
{
    settle(w);
    check(w, "kill", th_kill(w->host, w->debugger.self, w->debugger.target, TH_SIGINFO));
    check(w, "kill", th_kill(w->host, w->debugger.self, w->debugger.target, TH_SIGWINCH));
    compute(w);
    compute(w);
    exits(w, 0);
}

static void quiet(struct world *w)
{
    compute(w);
    compute(w);
    exits(w, 255);
}

static const struct test {
    const char *name;
    int events;
    void (*run)(struct world *w);
    const char *log;
} TESTS[] = {
    {"exit_code", 0, exit_code, "exit 3"},
    {"signal_twice", 0, signal_twice, "SIGCHLD, SIGCHLD, exit 0"},
    {"fatal_signal", 0, fatal_signal, "SIGSEGV, ended by SIGSEGV"},
    {"kill_signal", 0, kill_signal, "ended by SIGKILL"},
    {"caught_signal", 0, caught_signal, "SIGTERM, exit 1"},
    {"blocked_signal", 0, blocked_signal, "exit 0"},
    {"system_call", TH_PTRACE_SCE, system_call, "PL_FLAG_SCE, PL_FLAG_SCE, exit 0"},
    {"exec", TH_PTRACE_EXEC, exec, "PL_FLAG_SCX+PL_FLAG_EXEC, exit 0"},
    {"two_signals", 0, two_signals, "SIGWINCH, SIGINFO, exit 0"},
    {"quiet", 0, quiet, "exit 255"},
};

/* ---------------------------------------------------------------- running them */

/* What the debugger should have logged, and what it has. */
static void compare(struct world *w, const struct test *test)
{
    char message[1200];
    struct debugger *d = &w->debugger;
    if (w->trouble[0] == '\0' && d->error == 0 && strcmp(d->log, test->log) == 0)
        return;
    snprintf(message, sizeof message, "wanted: %s\n    got: %s%s%s%s", test->log, d->log, w->trouble[0] != '\0' ? "\n    " : "",
        w->trouble, d->error != 0 ? th_strerror(d->error) : "");
    th_test_fail(w->host, __FILE__, __LINE__, message);
}

static int run_test(const struct test *test)
{
    const char *plant = getenv("PLANT");
    struct world w = {.debugger = {.self = {USER, 0}, .events = test->events}};
    struct debugger *d = &w.debugger;
    d->host = w.host = th_open(NULL);
    if (w.host == NULL || th_test_begin(w.host, test->name) != 0) {
        fprintf(stderr, "%s: %s\n", test->name, th_strerror(errno));
        exit(2);
    }
    d->coalesces = plant != NULL && strcmp(plant, "coalesce") == 0;
    check(&w, "spawn", th_spawn(w.host, USER, &d->self.pid, NULL));
    check(&w, "spawn", th_spawn(w.host, USER, &d->target, &w.lwp));
    if (pthread_create(&w.thread, NULL, trace, d) != 0)
        abort();
    test->run(&w);
    pthread_join(w.thread, NULL);
    compare(&w, test);
    int failed = th_test_end(w.host, 1);
    failed |= th_close(w.host) != 0;
    printf("%s %s\n", failed ? "FAILED" : "ok", test->name);
    return failed;
}

int main(int argc, char **argv)
{
    int failed = 0;
    setenv("TRACEHOST_ARTIFACTS", argc > 1 ? argv[1] : ".", 1);
    for (size_t i = 0; i < sizeof TESTS / sizeof TESTS[0]; i++)
        failed += run_test(&TESTS[i]);
    printf("%d failed\n", failed);
    return failed > 0;
}
