/*
 * Makes the steps that its standard input names, one a line, and prints the line of each answer.
 *
 *     replay 0|1 [explain] < STEPS
 *
 * The number is the setting of kern.kill_on_debugger_exit. A line that begins with `{` is sent as it is; every other line has
 * the words that words.py writes, and is made by a typed call, whose result is written as the program would write it. With
 * `explain` the line of a refused call is followed by a line that says why.
 */
#define _POSIX_C_SOURCE 200809L

#include "../tracehost_client.h"

#include <stdio.h>
#include <stdlib.h>
#include <string.h>

enum { USERS = 1064 - 1001 + 1, MOST = 1000 };

static unsigned long counts[USERS];
static th_host *explained; /* the session, if refusals are explained */

/* the next word as a number of C's 32 bits */
static int number(char **rest)
{
    const char *word = strtok_r(NULL, " ", rest);
    return word == NULL ? 0 : (int)(uint32_t)strtoll(word, NULL, 10);
}

static void print_flags(const char *key, int flags)
{
    char names[160];
    th_flagnames(flags, names, sizeof names);
    printf(" %s=%s", key, names);
}

static void print_signals(const char *key, th_sigset set)
{
    const char *between = "";
    printf(" %s=", key);
    for (int sig = 1; sig <= 31; sig++)
        if (set & TH_SIGMASK(sig)) {
            printf("%s%d", between, sig);
            between = ",";
        }
    if (set == 0)
        printf("none");
}

static void print_mask(int mask)
{
    char names[160];
    th_eventnames(mask, names, sizeof names);
    printf("mask %s\n", names);
}

static void print_numbers(const char *kind, const int32_t *numbers, long count)
{
    printf("%s", kind);
    for (long i = 0; i < count; i++)
        printf(" %d", numbers[i]);
    printf("\n");
}

static void print_refusal(void)
{
    static const char *const names[] = {[TH_EPERM] = "EPERM",
        [TH_ESRCH] = "ESRCH",
        [TH_ECHILD] = "ECHILD",
        [TH_ENOMEM] = "ENOMEM",
        [TH_EBUSY] = "EBUSY",
        [TH_EINVAL] = "EINVAL",
        [TH_EAGAIN] = "EAGAIN"};
    int error = th_freebsd_errno(errno);
    if (errno == TH_EHELD)
        printf("held\n");
    else if (error != 0)
        printf("error %s %d\n", names[error], error);
    else
        printf("errno %d: %s\n", errno, th_strerror(errno));
    if (explained != NULL)
        printf("  %s\n", th_explain(explained));
}

static void done(int result)
{
    if (result < 0)
        print_refusal();
    else
        printf("ok\n");
}

static void ptrace_step(th_host *h, th_caller caller, char **rest)
{
    static th_lwpid lwps[MOST];
    int request = number(rest), target = number(rest), data = number(rest);
    if (request == TH_PT_LWPINFO) {
        struct th_lwpinfo info;
        if (th_ptrace(h, caller, request, target, &info, (int)sizeof info) != 0) {
            print_refusal();
            return;
        }
        printf("info %d %s", info.pl_lwpid, info.pl_event == TH_PL_EVENT_SIGNAL ? "SIGNAL" : "NONE");
        print_flags("flags", info.pl_flags);
        print_signals("mask", info.pl_sigmask);
        print_signals("pending", info.pl_siglist);
        printf(" child=%d code=%u\n", info.pl_child_pid, info.pl_syscall_code);
    } else if (request == TH_PT_GET_EVENT_MASK) {
        int mask;
        if (th_ptrace(h, caller, request, target, &mask, (int)sizeof mask) != 0)
            print_refusal();
        else
            print_mask(mask);
    } else if (request == TH_PT_SET_EVENT_MASK) {
        done(th_ptrace(h, caller, request, target, &data, (int)sizeof data));
    } else if (request == TH_PT_GETNUMLWPS) {
        int count = th_ptrace(h, caller, request, target, NULL, 0);
        if (count < 0)
            print_refusal();
        else
            printf("number %d\n", count);
    } else if (request == TH_PT_GETLWPLIST) {
        int count = th_ptrace(h, caller, request, target, lwps, data > MOST ? MOST : data);
        if (count < 0)
            print_refusal();
        else
            print_numbers("lwps", lwps, count);
    } else {
        done(th_ptrace(h, caller, request, target, NULL, data));
    }
}

static void handle_step(th_host *h, th_caller caller)
{
    static const char *const decisions[] = {"decline", "leave", "continue", "detach", "kill"};
    struct th_handled told;
    th_pid pid = th_handle(h, caller, &told);
    if (pid < 0) {
        print_refusal();
    } else if (pid == 0) {
        printf("nothing\n");
    } else if (!told.stopped) {
        printf("status %d %d\n", pid, told.status);
    } else {
        printf("handled %d %d at %d signal=%d", pid, told.status, told.lwp, told.signal);
        print_flags("flags", told.flags);
        printf(" child=%d code=%u by ", told.child, told.code);
        if (told.handler < 0)
            printf("none");
        else
            printf("%d", told.handler);
        printf(" %s", decisions[told.decision]);
        if (told.decision == TH_CONTINUE || told.decision == TH_DETACH)
            printf(" %d", told.pass);
        printf("\n");
    }
}

static void turn_step(th_host *h, unsigned user, char **rest)
{
    struct th_turned turned;
    th_lwpid lwp = number(rest);
    const char *act = strtok_r(NULL, " ", rest);
    int first = number(rest), second = number(rest), result;
    if (strcmp(act, "compute") == 0)
        result = th_turn_compute(h, user, lwp, &turned);
    else if (strcmp(act, "raise") == 0)
        result = th_turn_raise(h, user, lwp, first, &turned);
    else if (strcmp(act, "block") == 0)
        result = th_turn_block(h, user, lwp, (th_sigset)first, &turned);
    else if (strcmp(act, "enter") == 0)
        result = th_turn_enter(h, user, lwp, (enum th_call)first, (unsigned)second, &turned);
    else
        result = th_turn_leave(h, user, lwp, &turned);
    if (result != 0) {
        print_refusal();
    } else if (turned.what == TH_NEW) {
        printf("new %d %d\n", turned.pid, turned.lwp);
    } else if (turned.what == TH_STOPPED) {
        printf("stopped %d %d", turned.lwp, turned.signal);
        print_flags("flags", turned.flags);
        printf("\n");
    } else if (turned.what == TH_CAUGHT) {
        printf("caught %d\n", turned.signal);
    } else if (turned.what == TH_ENDED) {
        printf("ended %d\n", turned.status);
    } else {
        printf("ok\n");
    }
}

static void install_step(th_host *h, th_caller caller, char **rest)
{
    struct th_rule rules[16];
    int count = number(rest);
    for (int i = 0; i < count; i++) {
        rules[i].signal = number(rest);
        rules[i].flags = number(rest);
        rules[i].decision = (enum th_decision)number(rest);
        rules[i].pass = number(rest);
    }
    done(th_install(h, caller, rules, (size_t)count));
}

static void wait_step(th_host *h, th_caller caller, char **rest)
{
    int status, which = number(rest), options = number(rest);
    th_pid pid = th_wait4(h, caller, which, &status, options);
    if (pid < 0)
        print_refusal();
    else if (pid == 0)
        printf("nothing\n");
    else
        printf("status %d %d\n", pid, status);
}

static void spawn_step(th_host *h, unsigned user)
{
    th_pid pid;
    th_lwpid lwp;
    if (th_spawn(h, user, &pid, &lwp) != 0)
        print_refusal();
    else
        printf("new %d %d\n", pid, lwp);
}

static void call_step(th_host *h, char *words)
{
    static int32_t pids[MOST];
    char *rest;
    const char *op = strtok_r(words, " ", &rest);
    unsigned user = (unsigned)number(&rest);
    printf("%u %lu ", user, ++counts[user - 1001]);
    if (strcmp(op, "spawn") == 0) {
        spawn_step(h, user);
        return;
    }
    if (strcmp(op, "turn") == 0) {
        turn_step(h, user, &rest);
        return;
    }
    th_caller caller = {user, number(&rest)};
    if (strcmp(op, "ptrace") == 0) {
        ptrace_step(h, caller, &rest);
    } else if (strcmp(op, "wait4") == 0) {
        wait_step(h, caller, &rest);
    } else if (strcmp(op, "kill") == 0) {
        int which = number(&rest), sig = number(&rest);
        done(th_kill(h, caller, which, sig));
    } else if (strcmp(op, "sigaction") == 0) {
        int sig = number(&rest), action = number(&rest);
        done(th_sigaction(h, caller, sig, (enum th_action)action));
    } else if (strcmp(op, "list") == 0) {
        ssize_t count = th_list(h, caller, pids, MOST);
        if (count < 0)
            print_refusal();
        else
            print_numbers("pids", pids, count);
    } else if (strcmp(op, "install") == 0) {
        install_step(h, caller, &rest);
    } else {
        handle_step(h, caller);
    }
}

/* a step that is sent as it is; its number counts on for the typed calls */
static int text_step(th_host *h, const char *line)
{
    static char answer[65536];
    unsigned user;
    if (th_step_text(h, line, answer, sizeof answer) < 0) {
        fprintf(stderr, "replay: %s\n", th_strerror(errno));
        return -1;
    }
    if (sscanf(answer, "%u", &user) == 1 && user >= 1001 && user - 1001 < USERS)
        counts[user - 1001]++;
    printf("%s\n", answer);
    return 0;
}

int main(int argc, char **argv)
{
    if (argc != 2 && (argc != 3 || strcmp(argv[2], "explain") != 0)) {
        fprintf(stderr, "usage: replay 0|1 [explain] < STEPS\n");
        return 2;
    }
    struct th_settings settings = {atoi(argv[1])};
    th_host *h = th_open(&settings);
    if (h == NULL) {
        perror("replay");
        return 1;
    }
    explained = argc == 3 ? h : NULL;
    char *line = NULL;
    size_t size = 0;
    ssize_t length;
    int failed = 0;
    while (!failed && (length = getline(&line, &size, stdin)) > 0) {
        if (line[length - 1] == '\n')
            line[length - 1] = '\0';
        if (line[0] == '{')
            failed = text_step(h, line) != 0;
        else
            call_step(h, line);
    }
    free(line);
    return th_close(h) != 0 || failed;
}
