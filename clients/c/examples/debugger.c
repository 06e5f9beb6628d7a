/*
 * A small debugger: attaches to a shell, follows its forks, prints system calls and signals, and detaches when a child of the
 * shell has ended.
 *
 *     cc -o debugger debugger.c $(pkg-config --variable=source tracehost-client) $(pkg-config --cflags --libs tracehost-client)
 *     ./debugger
 *
 * `main` has what the traced processes do. clients/python/examples/debugger.py is the same in Python, and prints the
 * same.
 */
#include "tracehost_client.h"

#include <stdio.h>
#include <stdlib.h>

enum { USER = 1001, MOST = 16, SYS_READ = 3, SYS_WRITE = 4 };

struct debugger {
    th_host *host;
    th_caller self;
    th_pid tracees[MOST];
    int count;
    int leaving;
};

/* one act of an LWP */
struct act {
    enum { COMPUTE, RAISE, ENTER, LEAVE } kind;
    enum th_call call;
    unsigned number; /* a signal, or the code of a call */
};

static void fail(const char *what)
{
    fprintf(stderr, "%s: %s\n", what, th_strerror(errno));
    exit(1);
}

static void request(struct debugger *d, int number, th_pid pid, void *addr, int data)
{
    if (th_ptrace(d->host, d->self, number, pid, addr, data) != 0)
        fail("ptrace");
}

static const char *call_name(unsigned code)
{
    switch (code) {
    case 1: return "exit";
    case 2: return "fork";
    case 3: return "read";
    case 4: return "write";
    case 59: return "execve";
    case 66: return "vfork";
    default: return "call";
    }
}

/* Asks a process that has stopped for its events, and lets it go on. */
static void follow(struct debugger *d, th_pid pid)
{
    int events = TH_PTRACE_FORK | TH_PTRACE_VFORK | TH_PTRACE_EXEC | TH_PTRACE_SYSCALL;
    if (d->count == MOST)
        fail("too many processes");
    d->tracees[d->count++] = pid;
    request(d, TH_PT_SET_EVENT_MASK, pid, &events, (int)sizeof events);
    request(d, TH_PT_CONTINUE, pid, NULL, 0);
}

static void attach(struct debugger *d, th_pid pid)
{
    int status;
    request(d, TH_PT_ATTACH, pid, NULL, 0);
    if (th_wait4(d->host, d->self, pid, &status, 0) != pid)
        fail("wait4");
    printf("%d: attached\n", pid);
    follow(d, pid);
}

static void forget(struct debugger *d, th_pid pid)
{
    int kept = 0;
    for (int i = 0; i < d->count; i++)
        if (d->tracees[i] != pid)
            d->tracees[kept++] = d->tracees[i];
    d->count = kept;
}

static void stopped(struct debugger *d, th_pid pid, int sig)
{
    struct th_lwpinfo info;
    int passed = 0;
    request(d, TH_PT_LWPINFO, pid, &info, (int)sizeof info);
    const char *call = call_name(info.pl_syscall_code);
    if (info.pl_flags & TH_PL_FLAG_CHILD) {
        printf("%d: a child, followed\n", pid);
        follow(d, pid);
        return;
    }
    if (info.pl_flags & TH_PL_FLAG_SCE) {
        printf("%d: %s\n", pid, call);
    } else if (info.pl_flags & TH_PL_FLAG_FORKED) {
        printf("%d: %s = %d\n", pid, call, info.pl_child_pid);
    } else if (info.pl_flags & TH_PL_FLAG_EXEC) {
        printf("%d: runs another program\n", pid);
    } else if (info.pl_flags & TH_PL_FLAG_SCX) {
        printf("%d: %s done\n", pid, call);
    } else if (sig == TH_SIGSTOP && d->leaving) {
        request(d, TH_PT_DETACH, pid, NULL, 0);
        forget(d, pid);
        printf("%d: detached\n", pid);
        return;
    } else {
        printf("%d: %s, passed on\n", pid, th_signame(sig));
        passed = sig;
    }
    request(d, TH_PT_CONTINUE, pid, NULL, passed);
}

/* The first end is what the debugger has waited for: it stops the others, to detach from them. */
static void ended(struct debugger *d, th_pid pid, int status)
{
    if (TH_WIFEXITED(status))
        printf("%d: exited with %d\n", pid, TH_WEXITSTATUS(status));
    else
        printf("%d: ended by %s\n", pid, th_signame(TH_WTERMSIG(status)));
    forget(d, pid);
    d->leaving = 1;
    for (int i = 0; i < d->count; i++)
        if (th_kill(d->host, d->self, d->tracees[i], TH_SIGSTOP) != 0)
            fail("kill");
}

/* Takes all that wait4(2) has to report. */
static void collect(struct debugger *d)
{
    while (d->count > 0) {
        int status;
        th_pid pid = th_wait4(d->host, d->self, -1, &status, 0);
        if (pid < 0)
            fail("wait4");
        if (pid == 0)
            return;
        if (TH_WIFSTOPPED(status))
            stopped(d, pid, TH_WSTOPSIG(status));
        else
            ended(d, pid, status);
    }
}

static int turn(th_host *h, th_lwpid lwp, const struct act *act, struct th_turned *turned)
{
    switch (act->kind) {
    case COMPUTE: return th_turn_compute(h, USER, lwp, turned);
    case RAISE: return th_turn_raise(h, USER, lwp, (int)act->number, turned);
    case ENTER: return th_turn_enter(h, USER, lwp, act->call, act->number, turned);
    default: return th_turn_leave(h, USER, lwp, turned);
    }
}

/* The LWP does these acts, and the debugger takes what they bring. An act that a stop came before is done after it. */
static void run(struct debugger *d, th_lwpid lwp, const struct act *acts, size_t count)
{
    for (size_t i = 0; i < count; i++) {
        struct th_turned turned;
        do {
            if (turn(d->host, lwp, &acts[i], &turned) != 0)
                fail("turn");
            collect(d);
        } while (turned.what == TH_STOPPED && !(turned.flags & (TH_PL_FLAG_SCE | TH_PL_FLAG_SCX)));
    }
}

#define RUN(d, lwp, ...) \
    run(d, lwp, (const struct act[]){__VA_ARGS__}, sizeof((const struct act[]){__VA_ARGS__}) / sizeof(struct act))

int main(void)
{
    struct debugger d = {.self = {USER, 0}};
    th_pid shell;
    th_lwpid lwp;
    d.host = th_open(NULL);
    if (d.host == NULL)
        fail("tracehost");
    if (th_spawn(d.host, USER, &d.self.pid, NULL) != 0 || th_spawn(d.host, USER, &shell, &lwp) != 0)
        fail("spawn");
    attach(&d, shell);
    /* the shell reads a command, and makes a process for it, whose LWP has the next number */
    RUN(&d, lwp, {ENTER, TH_CALL_OTHER, SYS_READ}, {.kind = LEAVE}, {ENTER, TH_CALL_FORK, 0}, {.kind = LEAVE});
    RUN(&d, lwp + 1, {ENTER, TH_CALL_EXEC, 0}, {.kind = LEAVE}, {ENTER, TH_CALL_OTHER, SYS_WRITE}, {.kind = LEAVE});
    RUN(&d, lwp + 1, {.kind = RAISE, .number = TH_SIGWINCH}, {.kind = COMPUTE}, {ENTER, TH_CALL_EXIT, 3}, {.kind = LEAVE});
    RUN(&d, lwp, {.kind = COMPUTE}, {ENTER, TH_CALL_OTHER, SYS_READ}, {.kind = LEAVE});
    printf("%d: has collected %d\n", shell, th_wait4(d.host, (th_caller){USER, shell}, -1, NULL, 0));
    if (th_wait4(d.host, d.self, -1, NULL, 0) == -1 && errno == ECHILD)
        printf("nothing left to trace\n");
    return th_close(d.host) == 0 ? 0 : 1;
}
