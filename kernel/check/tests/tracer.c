/*
 * A small debugger, whose calls are logged: what it does is its argument. Plain C of Linux and FreeBSD. The status is 0 if all
 * went as it had to.
 */
#include <sys/types.h>
#include <sys/ptrace.h>
#include <sys/wait.h>
#include <errno.h>
#include <pthread.h>
#include <signal.h>
#include <stdio.h>
#include <stdlib.h>
#include <string.h>
#include <unistd.h>

#ifdef __linux__
#define PT_TRACE_ME PTRACE_TRACEME
static long request(int number, pid_t pid, long data) { return (ptrace((enum __ptrace_request)number, pid, NULL, (void *)data)); }
#else
static long request(int number, pid_t pid, long data) { return (ptrace(number, pid, (caddr_t)1, (int)data)); }
#endif

static volatile sig_atomic_t caught;

static void on_signal(int sig) { caught = sig; }

static void need(int holds, const char *what)
{
    if (holds)
        return;
    fprintf(stderr, "tracer: %s: %s\n", what, strerror(errno));
    exit(1);
}

static void await_stop(pid_t pid, int sig)
{
    int status;

    need(waitpid(pid, &status, 0) == pid, "wait");
    need(WIFSTOPPED(status) && WSTOPSIG(status) == sig, "a stop");
}

static void await_exit(pid_t pid, int code)
{
    int status;

    need(waitpid(pid, &status, 0) == pid, "wait");
    need(WIFEXITED(status) && WEXITSTATUS(status) == code, "an exit");
}

/* A child that is traced, stops, raises a signal, and begins a program. */
static void exec_child(char *program)
{
    pid_t pid = fork();

    need(pid != -1, "fork");
    if (pid == 0) {
        need(signal(SIGUSR1, on_signal) != SIG_ERR, "signal");
        need(request(PT_TRACE_ME, 0, 0) == 0, "trace me");
        raise(SIGSTOP);
        raise(SIGUSR1);
        execl(program, program, "nothing", (char *)NULL);
        _exit(3);
    }
    await_stop(pid, SIGSTOP);
    need(request(PT_CONTINUE, pid, 0) == 0, "continue");
    await_stop(pid, SIGUSR1);
    need(request(PT_CONTINUE, pid, SIGUSR1) == 0, "continue");
    await_stop(pid, SIGTRAP);
    need(request(PT_CONTINUE, pid, 0) == 0, "continue");
    await_exit(pid, 0);
}

/* A child that waits for SIGTERM is attached to, meets a signal, and is let go. */
static void attach(void)
{
    sigset_t set, old;
    pid_t pid;

    sigemptyset(&set);
    sigaddset(&set, SIGTERM);
    need(sigprocmask(SIG_BLOCK, &set, &old) == 0, "block");
    if ((pid = fork()) == 0) {
        signal(SIGTERM, on_signal);
        while (caught != SIGTERM)
            sigsuspend(&old);
        _exit(4);
    }
    need(request(PT_ATTACH, pid, 0) == 0, "attach");
    await_stop(pid, SIGSTOP);
    need(kill(pid, SIGWINCH) == 0, "kill");
    need(request(PT_CONTINUE, pid, 0) == 0, "continue");
    await_stop(pid, SIGWINCH);
    need(request(PT_DETACH, pid, 0) == 0, "detach");
    need(request(PT_CONTINUE, pid, 0) == -1, "a request after a detach");
    need(kill(pid, SIGTERM) == 0, "kill");
    await_exit(pid, 4);
}

/* Job control, a kill, and children of any order. */
static void jobs(void)
{
    pid_t first = fork(), second;
    int status;

    if (first == 0)
        for (;;)
            pause();
    need(kill(first, SIGSTOP) == 0, "kill");
    need(waitpid(first, &status, WUNTRACED) == first && WIFSTOPPED(status), "a job stop");
    need(kill(first, SIGCONT) == 0, "kill");
    need(waitpid(first, &status, WCONTINUED) == first && WIFCONTINUED(status), "a continued child");
    if ((second = fork()) == 0)
        _exit(5);
    need(waitpid(-1, &status, 0) == second && WEXITSTATUS(status) == 5, "any child");
    need(waitpid(-1, &status, WNOHANG) == 0, "no news");
    need(kill(first, SIGKILL) == 0, "kill");
    need(waitpid(-1, &status, 0) == first && WTERMSIG(status) == SIGKILL, "a killed child");
    need(waitpid(-1, &status, 0) == -1 && errno == ECHILD, "no child");
    need(kill(first, 0) == -1 && errno == ESRCH, "no process");
}

static void *begin_child(void *code)
{
    pid_t pid = fork();

    if (pid == 0)
        _exit(*(int *)code);
    await_exit(pid, *(int *)code);
    return (NULL);
}

/* Threads that each wait for a child of their own. */
static void threads(void)
{
    pthread_t others[3];
    int codes[] = {10, 11, 12}, i;

    for (i = 0; i < 3; i++)
        need(pthread_create(&others[i], NULL, begin_child, &codes[i]) == 0, "a thread");
    for (i = 0; i < 3; i++)
        pthread_join(others[i], NULL);
}

static void vforks(char *program)
{
    pid_t pid = vfork();

    if (pid == 0) {
        execl(program, program, "nothing", (char *)NULL);
        _exit(3);
    }
    await_exit(pid, 0);
    if ((pid = vfork()) == 0)
        _exit(6);
    await_exit(pid, 6);
}

/* A handler that makes calls, in the midst of a wait. */
static void on_child(int sig)
{
    int saved = errno, status;

    caught = sig;
    while (waitpid(-1, &status, WNOHANG) > 0)
        ;
    errno = saved;
}

static void handlers(void)
{
    struct sigaction act = {.sa_handler = on_child};
    sigset_t set, old;
    int i;

    need(sigaction(SIGCHLD, &act, NULL) == 0, "sigaction");
    sigemptyset(&set);
    sigaddset(&set, SIGCHLD);
    need(sigprocmask(SIG_BLOCK, &set, &old) == 0, "block");
    for (i = 0; i < 3; i++) {
        caught = 0;
        if (fork() == 0)
            _exit(i);
        while (caught == 0)
            sigsuspend(&old);
    }
}

/* A child that the C library makes and waits for: neither is logged. */
static void library_calls(void)
{
    int status = system("true; exit 3");

    need(WIFEXITED(status) && WEXITSTATUS(status) == 3, "system");
    need(waitpid(-1, &status, 0) == -1 && errno == ECHILD, "no child");
}

int main(int argc, char **argv)
{
    const char *what = argc > 1 ? argv[1] : "";

    if (strcmp(what, "exec") == 0)
        exec_child(argv[0]);
    else if (strcmp(what, "attach") == 0)
        attach();
    else if (strcmp(what, "jobs") == 0)
        jobs();
    else if (strcmp(what, "threads") == 0)
        threads();
    else if (strcmp(what, "vfork") == 0)
        vforks(argv[0]);
    else if (strcmp(what, "handlers") == 0)
        handlers();
    else if (strcmp(what, "library") == 0)
        library_calls();
    else if (strcmp(what, "nothing") != 0) {
        fprintf(stderr, "usage: tracer exec|attach|jobs|threads|vfork|handlers|library|nothing\n");
        return (2);
    }
    return (0);
}
