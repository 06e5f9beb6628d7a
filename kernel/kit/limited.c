/*
 * limited SECONDS COMMAND [WORD..]: runs a command in a process group of its own, and ends the group with it, when its
 * time is over, or when a signal asks this program to end. The command begins with default signals, none of them blocked,
 * without standard input, and can't write a file of more than 64 MiB.
 *
 * The status is the command's; 128 + N if signal N has ended it; 124 if the time is over; 125 if it couldn't be run.
 */
#if defined(__linux__)
#define _GNU_SOURCE
#include <sys/prctl.h>
#elif defined(__FreeBSD__)
#include <sys/procctl.h>
#endif
#include <sys/types.h>
#include <sys/resource.h>
#include <sys/wait.h>
#include <errno.h>
#include <fcntl.h>
#include <signal.h>
#include <stdbool.h>
#include <stdio.h>
#include <stdlib.h>
#include <string.h>
#include <unistd.h>

enum { TIME_IS_OVER = 124, NOT_RUN = 125, BY_SIGNAL = 128, MOST_SECONDS = 86400 };
static const rlim_t most_bytes = 64 << 20;

static void not_run(const char *what)
{
    fprintf(stderr, "limited: %s: %s\n", what, strerror(errno));
    exit(NOT_RUN);
}

/* This process gets the signal when its parent ends, even by SIGKILL. */
static void end_with_parent(int signal)
{
#if defined(__linux__)
    prctl(PR_SET_PDEATHSIG, signal);
#elif defined(PROC_PDEATHSIG_CTL)
    procctl(P_PID, 0, PROC_PDEATHSIG_CTL, &signal);
#else
    (void)signal;
#endif
}

/* What a shell's background or nohup(1) has left; SIGKILL, SIGSTOP and numbers that the system keeps refuse it. */
static void set_default_signals(void)
{
    for (int number = 1; number < NSIG; number++)
        signal(number, SIG_DFL);
}

static void note(int number) { (void)number; }

/* Blocks what is waited for. With a handler it pends: a signal that is ignored by default may be dropped. */
static void block_awaited(sigset_t *awaited)
{
    static const int numbers[] = {SIGCHLD, SIGALRM, SIGHUP, SIGINT, SIGTERM};
    sigemptyset(awaited);
    for (size_t i = 0; i < sizeof numbers / sizeof *numbers; i++) {
        sigaddset(awaited, numbers[i]);
        signal(numbers[i], note);
    }
    sigprocmask(SIG_SETMASK, awaited, NULL);
}

static void limit_files(void)
{
    struct rlimit limit;
    if (getrlimit(RLIMIT_FSIZE, &limit) == 0 && limit.rlim_cur > most_bytes) {
        limit.rlim_cur = most_bytes;
        setrlimit(RLIMIT_FSIZE, &limit);
    }
}

static void run(char **command, pid_t parent)
{
    sigset_t none;
    int nothing = open("/dev/null", O_RDONLY);
    if (nothing == -1 || dup2(nothing, STDIN_FILENO) == -1)
        not_run("/dev/null");
    if (nothing != STDIN_FILENO)
        close(nothing);
    setpgid(0, 0);
    limit_files();
    end_with_parent(SIGKILL);
    if (getppid() != parent)
        _exit(NOT_RUN);
    sigemptyset(&none);
    sigprocmask(SIG_SETMASK, &none, NULL);
    execvp(command[0], command);
    not_run(command[0]);
}

static int status_of(int status) { return WIFEXITED(status) ? WEXITSTATUS(status) : BY_SIGNAL + WTERMSIG(status); }

/* The group's number is nobody else's until its first process is collected. */
static int end_group(pid_t group)
{
    int status;
    kill(-group, SIGKILL); /* stopped processes too */
    return waitpid(group, &status, 0) == group ? status_of(status) : NOT_RUN;
}

static bool has_ended(pid_t child)
{
    siginfo_t info = {0};
    return waitid(P_PID, (id_t)child, &info, WEXITED | WNOHANG | WNOWAIT) == 0 && info.si_pid == child;
}

/* Waits until the command ends, and returns the status. */
static int await(pid_t child, const sigset_t *awaited)
{
    for (;;) {
        int number;
        if (sigwait(awaited, &number) != 0 || (number == SIGCHLD && !has_ended(child)))
            continue;
        int status = end_group(child);
        return number == SIGCHLD ? status : number == SIGALRM ? TIME_IS_OVER : BY_SIGNAL + number;
    }
}

int main(int count, char **words)
{
    sigset_t awaited;
    char *rest = "";
    long seconds = count > 2 ? strtol(words[1], &rest, 10) : 0;
    if (seconds < 1 || seconds > MOST_SECONDS || *rest != '\0') {
        fprintf(stderr, "usage: limited SECONDS COMMAND [WORD..]\n");
        return NOT_RUN;
    }
    pid_t parent = getppid();
    setpgid(0, 0); /* SIGKILL for the caller's group leaves this process, which ends the command then */
    end_with_parent(SIGTERM);
    set_default_signals();
    block_awaited(&awaited);
    if (getppid() != parent)
        return BY_SIGNAL + SIGTERM;
    pid_t self = getpid(), child = fork();
    if (child == -1)
        not_run("fork");
    if (child == 0)
        run(words + 2, self);
    setpgid(child, child); /* whoever comes first */
    alarm((unsigned)seconds);
    return await(child, &awaited);
}
