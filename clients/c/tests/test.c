/*
 * What the replay of scenarios doesn't reach: sizes and addresses, refused steps, status macros, and signals that interrupt a
 * call.
 *
 *     test PROGRAM FOLDER MILLISECONDS
 *
 * PROGRAM replays records, which are in the folder. Signals interrupt calls each so many milliseconds.
 */
#define _POSIX_C_SOURCE 200809L

#include "check.h"
#include "../tracehost_client.h"

#include <signal.h>
#include <stdio.h>
#include <stdlib.h>
#include <string.h>
#include <sys/time.h>
#include <sys/wait.h>
#include <unistd.h>

static const th_caller self = {1001, 1000};

static th_host *begin(void)
{
    th_host *h = th_open(NULL);
    th_pid pid = 0;
    th_lwpid lwp = 0;
    CHECK(th_spawn(h, 1001, &pid, &lwp) == 0 && pid == 1000 && lwp == 100000);
    CHECK(th_spawn(h, 1001, NULL, NULL) == 0);
    return h;
}

/* values that are none of their enums, which no step can have: EINVAL, and nothing is sent */
static void no_names(void)
{
    th_host *h = begin();
    const struct th_rule rules[] = {{0, 0, (enum th_decision)9, 0}, {0, 0x10000, TH_LEAVE, 0}};
    char line[64];
    REFUSED(EINVAL, th_sigaction(h, self, TH_SIGTERM, (enum th_action)7));
    REFUSED(EINVAL, th_install(h, self, &rules[0], 1));
    REFUSED(EINVAL, th_install(h, self, &rules[1], 1));
    REFUSED(EINVAL, th_turn_enter(h, 1001, 100000, (enum th_call)99, 0, NULL));
    REFUSED(EINVAL, th_wait4(h, self, -1, NULL, 64));
    REFUSED(EINVAL, th_step_text(h, "{}\n", line, sizeof line));
    CHECK(th_step_text(h, "{\"user\":1001,\"op\":\"list\",\"caller\":1000}", line, sizeof line) == 21);
    CHECK(strcmp(line, "1001 3 pids 1000 1001") == 0);
    th_close(h);
}

/* ptrace(2): sizes in `data`, an unknown request, unknown event bits, a list that is longer than its room */
static void arguments(void)
{
    th_host *h = begin();
    struct th_lwpinfo info = {0};
    th_lwpid lwps[4] = {7, 7, 7, 7};
    int mask = 0;
    REFUSED(EPERM, th_ptrace(h, self, TH_PT_LWPINFO, 1001, &info, (int)sizeof info));
    REFUSED(EINVAL, th_ptrace(h, self, 1, 1001, NULL, 0));
    CHECK(th_ptrace(h, self, TH_PT_ATTACH, 1001, NULL, 0) == 0);
    REFUSED(EBUSY, th_ptrace(h, self, TH_PT_LWPINFO, 1001, &info, (int)sizeof info));
    CHECK(th_wait4(h, self, 1001, NULL, TH_WNOHANG) == 1001);
    REFUSED(EINVAL, th_ptrace(h, self, TH_PT_LWPINFO, 1001, &info, 0));
    REFUSED(EINVAL, th_ptrace(h, self, TH_PT_LWPINFO, 1001, &info, (int)sizeof info + 1));
    REFUSED(EFAULT, th_ptrace(h, self, TH_PT_LWPINFO, 1001, NULL, (int)sizeof info));
    int front[3] = {0, 0, 7};
    CHECK(th_ptrace(h, self, TH_PT_LWPINFO, 1001, front, (int)(2 * sizeof(int))) == 0);
    CHECK(front[0] == 100001 && front[1] == TH_PL_EVENT_SIGNAL && front[2] == 7);
    REFUSED(EINVAL, th_ptrace(h, self, TH_PT_GET_EVENT_MASK, 1001, &mask, 1));
    REFUSED(EFAULT, th_ptrace(h, self, TH_PT_SET_EVENT_MASK, 1001, NULL, (int)sizeof mask));
    mask = 64;
    REFUSED(EINVAL, th_ptrace(h, self, TH_PT_SET_EVENT_MASK, 1001, &mask, (int)sizeof mask));
    REFUSED(ESRCH, th_ptrace(h, self, TH_PT_SET_EVENT_MASK, 1005, &mask, (int)sizeof mask));
    REFUSED(EINVAL, th_ptrace(h, self, TH_PT_GETLWPLIST, 1001, lwps, 0));
    REFUSED(EINVAL, th_ptrace(h, self, TH_PT_GETLWPLIST, 1001, lwps, -1));
    REFUSED(EFAULT, th_ptrace(h, self, TH_PT_GETLWPLIST, 1001, NULL, 4));
    CHECK(th_ptrace(h, self, TH_PT_GETLWPLIST, 1001, lwps, 4) == 1 && lwps[0] == 100001 && lwps[1] == 7);
    REFUSED(EINVAL, th_ptrace(h, self, TH_PT_CONTINUE, 1001, NULL, -1));
    CHECK(th_list(h, self, lwps, 1) == 2 && lwps[0] == 1000 && lwps[1] == 7);
    REFUSED(TH_EHELD, th_list(h, (th_caller){1001, 1001}, lwps, 4));
    REFUSED(EINVAL, th_wait4(h, self, -1, NULL, 8));
    REFUSED(ESRCH, th_kill(h, self, 77, 0));
    CHECK(th_close(h) == 0);
}

/* <sys/wait.h> of FreeBSD, and the numbers of <errno.h> */
static void statuses(void)
{
    CHECK(TH_WIFEXITED(3 << 8) && TH_WEXITSTATUS(3 << 8) == 3 && !TH_WIFSIGNALED(3 << 8) && !TH_WIFSTOPPED(3 << 8));
    CHECK(TH_WIFSIGNALED(9) && TH_WTERMSIG(9) == TH_SIGKILL && !TH_WIFEXITED(9));
    CHECK(TH_WIFSTOPPED(17 << 8 | 0177) && TH_WSTOPSIG(17 << 8 | 0177) == TH_SIGSTOP && !TH_WIFSIGNALED(17 << 8 | 0177));
    CHECK(TH_WIFCONTINUED(0x13) && !TH_WIFSIGNALED(0x13) && !TH_WIFEXITED(0x13));
    CHECK(th_freebsd_errno(EAGAIN) == 35 && th_freebsd_errno(ESRCH) == 3 && th_freebsd_errno(TH_EHELD) == 0);
}

/* each signal's name, and its number in <sys/signal.h> of FreeBSD */
static void signals(void)
{
#define SIGNAL(name, number) CHECK(TH_##name == (number) && strcmp(th_signame(number), #name) == 0)
    SIGNAL(SIGHUP, 1);
    SIGNAL(SIGINT, 2);
    SIGNAL(SIGQUIT, 3);
    SIGNAL(SIGILL, 4);
    SIGNAL(SIGTRAP, 5);
    SIGNAL(SIGABRT, 6);
    SIGNAL(SIGEMT, 7);
    SIGNAL(SIGFPE, 8);
    SIGNAL(SIGKILL, 9);
    SIGNAL(SIGBUS, 10);
    SIGNAL(SIGSEGV, 11);
    SIGNAL(SIGSYS, 12);
    SIGNAL(SIGPIPE, 13);
    SIGNAL(SIGALRM, 14);
    SIGNAL(SIGTERM, 15);
    SIGNAL(SIGURG, 16);
    SIGNAL(SIGSTOP, 17);
    SIGNAL(SIGTSTP, 18);
    SIGNAL(SIGCONT, 19);
    SIGNAL(SIGCHLD, 20);
    SIGNAL(SIGTTIN, 21);
    SIGNAL(SIGTTOU, 22);
    SIGNAL(SIGIO, 23);
    SIGNAL(SIGXCPU, 24);
    SIGNAL(SIGXFSZ, 25);
    SIGNAL(SIGVTALRM, 26);
    SIGNAL(SIGPROF, 27);
    SIGNAL(SIGWINCH, 28);
    SIGNAL(SIGINFO, 29);
    SIGNAL(SIGUSR1, 30);
    SIGNAL(SIGUSR2, 31);
    CHECK(th_signame(0) == NULL && th_signame(32) == NULL);
}

/* errno(2) of FreeBSD, and the client's own */
static void words(void)
{
    CHECK(strcmp(th_strerror(EPERM), "Operation not permitted") == 0);
    CHECK(strcmp(th_strerror(ESRCH), "No such process") == 0);
    CHECK(strcmp(th_strerror(ECHILD), "No child processes") == 0);
    CHECK(strcmp(th_strerror(ENOMEM), "Cannot allocate memory") == 0);
    CHECK(strcmp(th_strerror(EBUSY), "Device busy") == 0);
    CHECK(strcmp(th_strerror(EINVAL), "Invalid argument") == 0);
    CHECK(strcmp(th_strerror(EAGAIN), "Resource temporarily unavailable") == 0);
    CHECK(strcmp(th_strerror(TH_EHELD), "The caller or the LWP doesn't run, and the step isn't made") == 0);
    CHECK(strcmp(th_strerror(TH_EREFUSED), "Refused: what was sent is no step") == 0);
    CHECK(strcmp(th_strerror(EPIPE), "The session has ended") == 0);
    CHECK(strcmp(th_strerror(EFAULT), "Bad address") == 0);
    CHECK(strcmp(th_strerror(ETIMEDOUT), "Operation timed out") == 0);
    CHECK(strcmp(th_strerror(ENOENT), strerror(ENOENT)) == 0);
    CHECK(strcmp(th_strerror(ENOENT), strerror(ENOENT)) == 0);
}

/* names as the replay of scenarios doesn't have them: too long, without room, unknown bits */
static void flags(void)
{
    char text[24];
    CHECK(th_flagnames(TH_PL_FLAG_SCE | TH_PL_FLAG_EXEC, text, sizeof text) == 24 && strcmp(text, "PL_FLAG_SCE+PL_FLAG_EXE") == 0);
    CHECK(th_flagnames(TH_PL_FLAG_SCE, text, 12) == 11 && strcmp(text, "PL_FLAG_SCE") == 0);
    CHECK(th_flagnames(TH_PL_FLAG_SCE, text, 11) == 11 && strcmp(text, "PL_FLAG_SC") == 0);
    CHECK(th_flagnames(TH_PL_FLAG_SCE, NULL, 0) == 11 && th_flagnames(0, text, 1) == 4 && text[0] == '\0');
    CHECK(th_flagnames(0x8000 | TH_PL_FLAG_SCX, text, sizeof text) == 18 && strcmp(text, "PL_FLAG_SCX+0x8000") == 0);
    CHECK(th_flagnames(1, text, sizeof text) == 3 && strcmp(text, "0x1") == 0);
    CHECK(th_eventnames(TH_PTRACE_EXEC | TH_PTRACE_LWP, text, sizeof text) == 22 && strcmp(text, "PTRACE_EXEC+PTRACE_LWP") == 0);
    CHECK(th_eventnames(0, text, sizeof text) == 4 && strcmp(text, "none") == 0);
}

static void has(const char *path, const char *wanted)
{
    char got[1024];
    FILE *file = fopen(path, "r");
    size_t length = file == NULL ? 0 : fread(got, 1, sizeof got - 1, file);
    got[length] = '\0';
    CHECK(file != NULL && strcmp(got, wanted) == 0);
    if (file != NULL)
        fclose(file);
}

/* a record is whole after each step, has no refused step, and replays; it begins before the first step */
static void recorded(const char *program, const char *folder)
{
    char scenario[1024], lines[1024], command[4096];
    snprintf(scenario, sizeof scenario, "%s/record.json", folder);
    snprintf(lines, sizeof lines, "%s/record.out", folder);
    snprintf(command, sizeof command, "'%s' '%s' --expect '%s'", program, scenario, lines);
    for (int kills = 0; kills <= 1; kills++) {
        struct th_settings asked = {kills};
        th_host *h = th_open(&asked);
        REFUSED(ENOENT, th_record(h, "/nowhere/record.json", lines));
        REFUSED(ENOENT, th_record(h, scenario, "/nowhere/record.out"));
        CHECK(th_record(h, scenario, lines) == 0);
        REFUSED(EBUSY, th_record(h, scenario, lines));
        has(scenario, kills ? "{\"kill_on_debugger_exit\":1,\"steps\":[\n]}\n" : "{\"kill_on_debugger_exit\":0,\"steps\":[\n]}\n");
        CHECK(th_spawn(h, 1001, NULL, NULL) == 0 && th_spawn(h, 1002, NULL, NULL) == 0);
        REFUSED(TH_EREFUSED, th_spawn(h, 1065, NULL, NULL));
        REFUSED(ESRCH, th_kill(h, self, 77, 0));
        REFUSED(EPERM, th_ptrace(h, self, TH_PT_TRACE_ME, 1000, NULL, 7));
        has(lines, "1001 1 new 1000 100000\n1002 1 new 2000 104000\n1001 2 error ESRCH 3\n1001 3 error EPERM 1\n");
        CHECK(system(command) == 0);
        CHECK(th_close(h) == 0);
        CHECK(system(command) == 0);
    }
    th_host *h = begin();
    REFUSED(EBUSY, th_record(h, scenario, lines));
    CHECK(th_close(h) == 0);
    h = th_open(NULL);
    CHECK(th_record(h, "/dev/full", NULL) == -1 && errno != 0 && th_spawn(h, 1001, NULL, NULL) == 0);
    CHECK(th_close(h) == 0);
}

/* what is no step: its fault, and the session goes on */
static void refused_steps(void)
{
    th_host *h = begin();
    struct th_rule rules[17] = {{0}};
    char answer[64];
    CHECK(th_fault(h)[0] == '\0' && th_reason(h)[0] == '\0');
    REFUSED(TH_EREFUSED, th_spawn(h, 1065, NULL, NULL));
    CHECK(strcmp(th_fault(h), "BadUser") == 0);
    const char *reason = "line 3, user: 1065 is out of range; expected a whole number from 1001 to 1064";
    CHECK(strcmp(th_reason(h), reason) == 0);
    REFUSED(TH_EREFUSED, th_install(h, self, rules, 17));
    CHECK(strcmp(th_fault(h), "TooManyRules") == 0);
    rules[0].signal = 32;
    REFUSED(TH_EREFUSED, th_install(h, self, rules, 1));
    CHECK(strcmp(th_fault(h), "BadNumber") == 0);
    CHECK(th_install(h, self, rules + 1, 16) == 0 && th_fault(h)[0] == '\0' && th_reason(h)[0] == '\0');
    CHECK(th_step_text(h, "", answer, sizeof answer) == 15 && strcmp(answer, "refused BadJson") == 0);
    CHECK(th_step_text(h, "{}", answer, 8) == 16 && strcmp(answer, "refused") == 0);
    REFUSED(EINVAL, th_step_text(h, "{}\n{}", answer, sizeof answer));
    CHECK(th_step_text(h, "{\"user\":1001,\"op\":\"spawn\"}", answer, sizeof answer) == 22);
    CHECK(strcmp(answer, "1001 4 new 1002 100002") == 0);
    CHECK(th_close(h) == 0);
}

/* the setting of kern.kill_on_debugger_exit: the tracee of a debugger that is killed */
static void settings(void)
{
    for (int kills = 0; kills <= 1; kills++) {
        th_pid pids[4];
        struct th_settings asked = {kills};
        struct th_turned turned;
        th_host *h = th_open(&asked);
        for (int i = 0; i < 3; i++)
            CHECK(th_spawn(h, 1001, NULL, NULL) == 0);
        CHECK(th_ptrace(h, self, TH_PT_ATTACH, 1001, NULL, 0) == 0);
        CHECK(th_turn_raise(h, 1001, 100000, TH_SIGKILL, &turned) == 0 && turned.what == TH_ENDED && turned.status == 9);
        CHECK(th_list(h, (th_caller){1001, 1002}, pids, 4) == (kills ? 1 : 2));
        CHECK(th_close(h) == 0);
    }
}

static volatile sig_atomic_t alarms;

static void alarmed(int sig)
{
    (void)sig;
    alarms++;
}

/* a signal at each of these times, without SA_RESTART: every call still answers, and a line of 8 MB is sent whole */
static void interrupted(int milliseconds)
{
    struct sigaction action = {0};
    struct itimerval each = {{0, milliseconds * 1000}, {0, milliseconds * 1000}}, none = {{0, 0}, {0, 0}};
    th_host *h = begin();
    action.sa_handler = alarmed;
    sigaction(SIGALRM, &action, NULL);
    setitimer(ITIMER_REAL, &each, NULL);
    for (int i = 0; i < 1000000 && alarms < 50; i++) {
        th_pid pids[4];
        if (th_list(h, self, pids, 4) != 2) {
            CHECK(!"a call that a signal interrupts goes on");
            break;
        }
    }
    size_t most = 8 << 20;
    char *line = malloc(most), answer[64];
    memset(line, ' ', most - 1);
    line[most - 1] = '\0';
    CHECK(th_step_text(h, line, answer, sizeof answer) == 15 && strcmp(answer, "refused TooLong") == 0);
    free(line);
    CHECK(th_kill(h, self, 1001, 0) == 0);
    int status = th_close(h);
    setitimer(ITIMER_REAL, &none, NULL);
    CHECK(alarms > 0 && status == 0);
}

int main(int argc, char **argv)
{
    if (argc != 4)
        return 2;
    arguments();
    statuses();
    signals();
    words();
    flags();
    refused_steps();
    no_names();
    recorded(argv[1], argv[2]);
    settings();
    interrupted(atoi(argv[3]));
    if (!failed)
        printf("the tests of the client in C passed\n");
    return failed;
}
