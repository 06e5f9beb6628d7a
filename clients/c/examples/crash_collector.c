/*
 * A crash collector: traces workers, leaves each at the signal that crashes it, writes a report of its LWPs, and lets it end.
 *
 *     cc -o crash_collector crash_collector.c $(pkg-config --variable=source tracehost-client) $(pkg-config --cflags --libs tracehost-client)
 *     ./crash_collector
 *
 * `main` has what the workers do. clients/python/examples/crash_collector.py is the same in Python, and prints the same.
 */
#include "tracehost_client.h"

#include <stdio.h>
#include <stdlib.h>

enum { USER = 1001, WORKERS = 4, MOST_LWPS = 16 };

struct collector {
    th_host *host;
    th_caller self;
    int watched;
    int crashes;
};

static void fail(const char *what)
{
    fprintf(stderr, "%s: %s\n", what, th_strerror(errno));
    exit(1);
}

static int request(struct collector *c, int number, th_pid pid, void *addr, int data)
{
    int result = th_ptrace(c->host, c->self, number, pid, addr, data);
    if (result < 0)
        fail("ptrace");
    return result;
}

/* One stop handler leaves a crash to the collector, another passes on what asks for an end. */
static void install(struct collector *c)
{
    static const struct th_rule crashes[] = {
        {TH_SIGILL, 0, TH_LEAVE, 0},
        {TH_SIGABRT, 0, TH_LEAVE, 0},
        {TH_SIGFPE, 0, TH_LEAVE, 0},
        {TH_SIGBUS, 0, TH_LEAVE, 0},
        {TH_SIGSEGV, 0, TH_LEAVE, 0},
        {TH_SIGSYS, 0, TH_LEAVE, 0},
    };
    static const struct th_rule requests_to_end[] = {
        {TH_SIGHUP, 0, TH_CONTINUE, TH_SIGHUP},
        {TH_SIGINT, 0, TH_CONTINUE, TH_SIGINT},
        {TH_SIGTERM, 0, TH_CONTINUE, TH_SIGTERM},
    };
    if (th_install(c->host, c->self, crashes, sizeof crashes / sizeof crashes[0]) != 0 ||
        th_install(c->host, c->self, requests_to_end, sizeof requests_to_end / sizeof requests_to_end[0]) != 0)
        fail("install");
}

static void watch(struct collector *c, th_pid pid)
{
    request(c, TH_PT_ATTACH, pid, NULL, 0);
    if (th_wait4(c->host, c->self, pid, NULL, 0) != pid)
        fail("wait4");
    request(c, TH_PT_CONTINUE, pid, NULL, 0);
    c->watched++;
}

static void print_signals(const char *what, th_sigset set)
{
    printf("%s", what);
    for (int sig = 1; sig <= 31; sig++)
        if (set & TH_SIGMASK(sig))
            printf(" %s", th_signame(sig));
    if (set == 0)
        printf(" none");
}

static void report(struct collector *c, th_pid pid, const struct th_handled *stop)
{
    th_lwpid lwps[MOST_LWPS];
    c->crashes++;
    printf("%d: crashed by %s in LWP %d\n", pid, th_signame(stop->signal), stop->lwp);
    int count = request(c, TH_PT_GETLWPLIST, pid, lwps, MOST_LWPS);
    for (int i = 0; i < count; i++) {
        struct th_lwpinfo info;
        request(c, TH_PT_LWPINFO, lwps[i], &info, (int)sizeof info);
        printf("  LWP %d:", lwps[i]);
        print_signals(" blocks", info.pl_sigmask);
        print_signals(", pending", info.pl_siglist);
        printf("\n");
    }
}

static void ended(struct collector *c, th_pid pid, int status)
{
    c->watched--;
    if (TH_WIFEXITED(status))
        printf("%d: exited with %d\n", pid, TH_WEXITSTATUS(status));
    else
        printf("%d: ended by %s\n", pid, th_signame(TH_WTERMSIG(status)));
}

/* Takes all stops and ends that are there. */
static void collect(struct collector *c)
{
    while (c->watched > 0) {
        struct th_handled told;
        th_pid pid = th_handle(c->host, c->self, &told);
        if (pid < 0)
            fail("handle");
        if (pid == 0)
            return;
        if (!told.stopped) {
            ended(c, pid, told.status);
        } else if (told.decision == TH_LEAVE) {
            report(c, pid, &told);
            request(c, TH_PT_CONTINUE, pid, NULL, told.signal);
        } else {
            printf("%d: %s, passed on\n", pid, th_signame(told.signal));
        }
    }
}

/* The result of an LWP's turn, after which the collector takes what it brought. */
static void then(struct collector *c, int result)
{
    if (result != 0)
        fail("turn");
    collect(c);
}

int main(void)
{
    struct collector c = {.self = {USER, 0}};
    th_pid pids[WORKERS];
    th_lwpid lwps[WORKERS];
    th_host *h = c.host = th_open(NULL);
    if (h == NULL)
        fail("tracehost");
    if (th_spawn(h, USER, &c.self.pid, NULL) != 0)
        fail("spawn");
    install(&c);
    for (int i = 0; i < WORKERS; i++)
        if (th_spawn(h, USER, &pids[i], &lwps[i]) != 0)
            fail("spawn");
    for (int i = 0; i < WORKERS; i++)
        watch(&c, pids[i]);
    /* an LWP of the first worker has a signal pending when another crashes */
    then(&c, th_turn_block(h, USER, lwps[0], TH_SIGMASK(TH_SIGUSR1), NULL));
    then(&c, th_turn_raise(h, USER, lwps[0], TH_SIGUSR1, NULL));
    then(&c, th_turn_enter(h, USER, lwps[0], TH_CALL_THR_NEW, 0, NULL));
    struct th_turned made;
    then(&c, th_turn_leave(h, USER, lwps[0], &made));
    then(&c, th_turn_raise(h, USER, made.lwp, TH_SIGSEGV, NULL));
    then(&c, th_turn_compute(h, USER, made.lwp, NULL));
    then(&c, th_turn_raise(h, USER, lwps[1], TH_SIGTERM, NULL));
    then(&c, th_turn_compute(h, USER, lwps[1], NULL));
    then(&c, th_turn_raise(h, USER, lwps[2], TH_SIGABRT, NULL));
    then(&c, th_turn_compute(h, USER, lwps[2], NULL));
    then(&c, th_turn_enter(h, USER, lwps[3], TH_CALL_EXIT, 0, NULL));
    then(&c, th_turn_leave(h, USER, lwps[3], NULL));
    printf("%d crashes, %d workers left\n", c.crashes, c.watched);
    return th_close(h) == 0 ? 0 : 1;
}
