/*
 * A log of what programs ask the kernel about processes, and of what it tells them, for tracehost-check. FreeBSD and Linux.
 *
 *     make    (Linux with an old C library: make LIBS=-ldl)
 *     TRACEHOST_LOG=/tmp/log LD_PRELOAD=$PWD/build/libtracehost-log.so debugger ..
 *
 * All programs that inherit both variables append to one file. A line has words with a space between them:
 *
 *     PID/LWP N begins log=1 system=Linux parent=PID blocked=SIGNALS ignored=SIGNALS program=NAME    a program begins
 *     PID/LWP N begins fork=PID/LWP.N        a child of that call; vfork= too, and parent=PID of a fork that wasn't seen
 *     PID/LWP N begins thread
 *     PID/LWP N asks CALL NAME=VALUE ..      before a call
 *     PID/LWP N told RESULT NAME=VALUE ..    after it
 *
 * N is 0 in `begins`, and else the number of the call among those of its LWP: a number that is missing is a line that could
 * not be written. A call in a signal handler says `within=N` if it interrupts call N. The calls of exit and execve that are
 * done, and vfork's, are told nothing. Calls by other names are logged as what they are: waitpid as wait4, signal as sigaction.
 * Signals, errnos and requests have FreeBSD's names if it has such a one, else the system's; a list has commas, `-` is an empty
 * one. Other bytes than printable ASCII in names are \xNN. A status is exited:N, signaled:SIGNAL, stopped:SIGNAL or continued.
 *
 * The program isn't disturbed: a line is one write(2), to a file that is open only meanwhile, with signals blocked; there is
 * no allocation, and errno is kept. If the file can't be written, lines are missing.
 *
 * Not seen: programs that are linked statically, or started without both variables; system calls by an instruction or by
 * syscall(2); what the C library does on its own: posix_spawn, system, popen, daemon; clone, rfork, pdfork, sigqueue, timers.
 */
#ifdef __linux__
#define _GNU_SOURCE
#endif
#include "log-calls.h"
#include "log-requests.h"
#include <sys/resource.h>
#include <sys/time.h>
#include <errno.h>
#include <stdarg.h>
#include <stdint.h>
#include <string.h>
#ifndef __OPTIMIZE__
#error "compile with -O2: the wrapper of vfork has to end in a jump"
#endif

extern char **environ;

/* ---- ptrace */

#ifdef __FreeBSD__
int ptrace(int request, pid_t pid, caddr_t addr, int data)
{
    struct call call;
    int result;

    if (ask(&call, "ptrace"))
        put_request(&call.line, request, pid, addr, data);
    asked(&call);
    result = next_ptrace(request, pid, addr, data);
    if (tell(&call, result) && result != -1)
        put_answer(&call.line, request, addr, data, result);
    told(&call);
    return (result);
}
#else
long ptrace(enum __ptrace_request request, ...)
{
    struct call call;
    va_list rest;
    pid_t pid;
    void *addr, *data;
    long result;

    va_start(rest, request);
    pid = va_arg(rest, pid_t);
    addr = va_arg(rest, void *);
    data = va_arg(rest, void *);
    va_end(rest);
    if (ask(&call, "ptrace"))
        put_request(&call.line, (int)request, pid, addr, (long)data);
    asked(&call);
    result = next_ptrace(request, pid, addr, data);
    if (is_peek((int)request)) /* the word that it read is nobody's business */
        tell(&call, result == -1 && errno != 0 ? -1 : 0);
    else if (tell(&call, result) && result != -1)
        put_answer(&call.line, (int)request, data);
    told(&call);
    return (result);
}
#endif

/* ---- waits */

static const struct name option_names[] = {NAME(WNOHANG), NAME(WUNTRACED), NAME(WCONTINUED), NAME(WNOWAIT),
#ifdef WTRAPPED
    NAME(WTRAPPED),
#endif
    NAME(WEXITED), {0, NULL}};

static void put_status(struct line *line, int status)
{
    word(line, "status");
    if (WIFSTOPPED(status)) {
        put(line, "stopped:");
        put_stop(line, WSTOPSIG(status), status >> 16);
    } else if (WIFSIGNALED(status)) {
        put(line, "signaled:");
        put_named(line, signal_names, WTERMSIG(status));
    } else if (WIFEXITED(status)) {
        put(line, "exited:");
        put_number(line, WEXITSTATUS(status));
    } else
        put(line, "continued");
}

static void ask_wait(struct call *call, const char *name, pid_t which, int options)
{
    if (ask(call, name)) {
        number_word(&call->line, "pid", which);
        bits_word(&call->line, "options", option_names, (unsigned)options);
    }
    asked(call);
}

static void tell_wait(struct call *call, pid_t pid, int status)
{
    if (tell(call, pid) && pid > 0)
        put_status(&call->line, status);
    told(call);
}

pid_t wait4(pid_t which, int *status, int options, struct rusage *usage)
{
    struct call call;
    int own = 0;
    pid_t pid;

    ask_wait(&call, "wait4", which, options);
    pid = next_wait4(which, &own, options, usage);
    tell_wait(&call, pid, own);
    if (status != NULL && pid > 0)
        *status = own;
    return (pid);
}

pid_t wait3(int *status, int options, struct rusage *usage) { return (wait4(-1, status, options, usage)); }
pid_t waitpid(pid_t which, int *status, int options) { return (wait4(which, status, options, NULL)); }
pid_t wait(int *status) { return (wait4(-1, status, 0, NULL)); }

static pid_t which_of(idtype_t kind, id_t id)
{
    if (kind == P_ALL)
        return (-1);
    return (kind == P_PID ? (pid_t)id : kind == P_PGID ? -(pid_t)id : 0);
}

/* The status that wait4 would have told. */
static void put_child(struct line *line, const siginfo_t *info)
{
    number_word(line, "pid", info->si_pid);
    word(line, "status");
    if (info->si_code == CLD_EXITED) {
        put(line, "exited:");
        put_number(line, info->si_status & 0xff);
    } else if (info->si_code == CLD_CONTINUED)
        put(line, "continued");
    else {
        int stopped = info->si_code == CLD_STOPPED || info->si_code == CLD_TRAPPED;

        put(line, stopped ? "stopped:" : "signaled:");
        put_stop(line, info->si_status & 0xff, stopped ? info->si_status >> 8 : 0);
    }
}

int waitid(idtype_t kind, id_t id, siginfo_t *info, int options)
{
    struct call call;
    siginfo_t own;
    int result;

    memset(&own, 0, sizeof(own));
    ask_wait(&call, "waitid", which_of(kind, id), options);
    result = next_waitid(kind, id, &own, options);
    if (tell(&call, result) && result == 0 && own.si_pid != 0)
        put_child(&call.line, &own);
    told(&call);
    if (info != NULL && result == 0)
        *info = own;
    return (result);
}

#ifdef __FreeBSD__
pid_t wait6(idtype_t kind, id_t id, int *status, int options, struct __wrusage *usage, siginfo_t *info)
{
    struct call call;
    int own = 0;
    pid_t pid;

    ask_wait(&call, "wait6", which_of(kind, id), options);
    pid = next_wait6(kind, id, &own, options, usage, info);
    tell_wait(&call, pid, own);
    if (status != NULL && pid > 0)
        *status = own;
    return (pid);
}
#endif

/* ---- processes and threads */

pid_t fork(void)
{
    struct caller parent = {0};
    struct call call;
    struct line line;
    pid_t pid;

    ask(&call, "fork");
    asked(&call);
    if (call.caller != NULL)
        parent = *call.caller;
    if ((pid = next_fork()) != 0 || call.caller == NULL) {
        tell_result(&call, pid);
        return (pid);
    }
    begin_caller(&this.self);
    this.child.pid = 0;
    this.vforked = 0;
    start_line(&line, &this.self, 0, " begins");
    put_origin(&line, "fork", &parent, call.number);
    send_line(&line);
    errno = call.saved;
    return (0);
}

static __attribute__((noinline)) void log_vfork(void)
{
    struct call call;

    if (ask(&call, "vfork")) {
        send_line(&call.line);
        this.vforked = call.number;
        this.child.pid = 0;
    }
    errno = call.saved;
}

/* What the call returns isn't seen: a function that returns in the child leaves no stack to its parent, so this one has to end in
 * a jump. The child's first line names the call. */
pid_t vfork(void)
{
    log_vfork();
    return (((pid_t(*)(void))next_vfork)());
}

int pthread_create(pthread_t *thread, const pthread_attr_t *attributes, void *(*start)(void *), void *argument)
{
    struct call call;
    int error;

    ask(&call, "pthread_create");
    asked(&call);
    error = next_pthread_create(thread, attributes, start, argument);
    tell_error(&call, error);
    return (error);
}

void pthread_exit(void *value)
{
    struct call call;

    ask(&call, "pthread_exit");
    asked(&call);
    next_pthread_exit(value);
    __builtin_unreachable();
}

static void ask_exec(struct call *call, const char *path)
{
    if (ask(call, "execve"))
        text_word(&call->line, "path", path);
    asked(call);
}

int execve(const char *path, char *const argv[], char *const envp[])
{
    struct call call;

    ask_exec(&call, path);
    next_execve(path, argv, envp);
    tell_result(&call, -1);
    return (-1);
}

int execv(const char *path, char *const argv[]) { return (execve(path, argv, environ)); }

int execvp(const char *file, char *const argv[])
{
    struct call call;

    ask_exec(&call, file);
    next_execvp(file, argv);
    tell_result(&call, -1);
    return (-1);
}

#ifdef __linux__
int execvpe(const char *file, char *const argv[], char *const envp[])
{
    struct call call;

    ask_exec(&call, file);
    next_execvpe(file, argv, envp);
    tell_result(&call, -1);
    return (-1);
}
#endif

int fexecve(int file, char *const argv[], char *const envp[])
{
    struct call call;

    ask_exec(&call, "-");
    next_fexecve(file, argv, envp);
    tell_result(&call, -1);
    return (-1);
}

/* The arguments of execl and its kin as an array, which the caller has room for. */
#define COLLECT(argv, first)             \
    va_list rest;                        \
    size_t count = 1, i;                 \
    va_start(rest, first);               \
    while (va_arg(rest, char *) != NULL) \
        count++;                         \
    va_end(rest);                        \
    char *argv[count + 1];               \
    va_start(rest, first);               \
    argv[0] = (char *)(uintptr_t)first;  \
    for (i = 1; i <= count; i++)         \
    argv[i] = va_arg(rest, char *)

int execl(const char *path, const char *first, ...)
{
    COLLECT(argv, first);
    va_end(rest);
    return (execve(path, argv, environ));
}

int execlp(const char *file, const char *first, ...)
{
    COLLECT(argv, first);
    va_end(rest);
    return (execvp(file, argv));
}

int execle(const char *path, const char *first, ...)
{
    char **envp;

    COLLECT(argv, first);
    envp = va_arg(rest, char **);
    va_end(rest);
    return (execve(path, argv, envp));
}

/* ---- ends */

static void ask_exit(const int *code)
{
    struct call call;

    if (ask(&call, "exit")) {
        word(&call.line, "code");
        if (code != NULL)
            put_number(&call.line, *code & 0xff);
        else
            put(&call.line, "-"); /* main has returned it */
    }
    asked(&call);
}

/* What exit(3) runs first may make calls, or end otherwise: the end itself is logged at the end of all that. */
#ifdef __GLIBC__
static void log_exit(int code, void *unused)
{
    (void)unused;
    ask_exit(&code);
}

void log_exit_later(void) { on_exit(log_exit, NULL); }
#else
static int exit_code = -1; /* not known if main has returned it */

void log_exit_later(void) {}

void exit(int code)
{
    begin();
    exit_code = code;
    next_exit(code);
    __builtin_unreachable();
}

__attribute__((destructor)) static void end(void)
{
    if (began)
        ask_exit(exit_code == -1 ? NULL : &exit_code);
}
#endif

void _exit(int code)
{
    ask_exit(&code);
    next__exit(code);
    __builtin_unreachable();
}

void _Exit(int code) { _exit(code); }

void quick_exit(int code)
{
    ask_exit(&code);
    next_quick_exit(code);
    __builtin_unreachable();
}
