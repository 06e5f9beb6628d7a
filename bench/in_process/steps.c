/*
 * Makes steps in one way, mostly attach, wait4 and detach in turn, and prints how many nanoseconds a step took.
 *
 *     steps typed STEPS [history | users]
 *     steps churn|text|json|client STEPS
 *
 * typed, churn, text and json call tracehost.h; churn makes a fork, the child's exit and a wait4 in turn. With `history` 8,000
 * of the user's processes have come and gone before, with `users` the 63 other users have 250 processes each. client calls the
 * client in C; WITHOUT_CLIENT leaves it out. bench/in_process.py compiles and runs it.
 */
#define _POSIX_C_SOURCE 200809L

#include <stdio.h>
#include <stdlib.h>
#include <string.h>
#include <time.h>
#include <tracehost.h>
#ifndef WITHOUT_CLIENT
#include <tracehost_client.h>
#endif

enum { USER = 1001, LAST_USER = 1064, DEBUGGER = 1000, TARGET = 1001, ENDED_BEFORE = 8000, FULL = 250 };

static void wanted(int truth, const char *what)
{
    if (!truth) {
        fprintf(stderr, "steps: %s\n", what);
        exit(1);
    }
}

static double seconds(void)
{
    struct timespec now;
    clock_gettime(CLOCK_MONOTONIC, &now);
    return (double)now.tv_sec + (double)now.tv_nsec / 1e9;
}

static tracehost open_session(void)
{
    tracehost h = TRACEHOST_CLOSED;
    wanted(tracehost_open(true, &h) == TRACEHOST_ANSWERED, "tracehost_open");
    return h;
}

static tracehost_reply spawn(tracehost *h, uint32_t user)
{
    tracehost_reply reply;
    wanted(tracehost_spawn(h, user, &reply) == TRACEHOST_ANSWERED && reply.kind == TRACEHOST_NEW, "spawn");
    return reply;
}

/* The two turns of a system call, and the reply to the second one. */
static tracehost_reply call(tracehost *h, uint32_t lwp, uint32_t number)
{
    tracehost_reply reply;
    tracehost_turn(h, USER, lwp, TRACEHOST_ENTER, number, 0, &reply);
    wanted(reply.kind == TRACEHOST_OK, "enter");
    tracehost_turn(h, USER, lwp, TRACEHOST_LEAVE_CALL, 0, 0, &reply);
    return reply;
}

static double typed(long rounds, const char *beside)
{
    tracehost h = open_session();
    tracehost_reply reply;
    for (uint32_t user = USER + 1; strcmp(beside, "users") == 0 && user <= LAST_USER; user++)
        for (int i = 0; i < FULL; i++)
            spawn(&h, user);
    uint32_t debugger = spawn(&h, USER).pid;
    for (int i = 0; strcmp(beside, "history") == 0 && i < ENDED_BEFORE; i++)
        wanted(call(&h, spawn(&h, USER).lwp, TRACEHOST_EXIT).kind == TRACEHOST_ENDED, "exit");
    uint32_t target = spawn(&h, USER).pid;
    double began = seconds();
    for (long i = 0; i < rounds; i++) {
        tracehost_ptrace(&h, USER, debugger, TRACEHOST_PT_ATTACH, target, 0, &reply);
        wanted(reply.kind == TRACEHOST_OK, "attach");
        tracehost_wait4(&h, USER, debugger, target, 0, &reply);
        wanted(reply.kind == TRACEHOST_STATUS && reply.pid == target, "wait4");
        tracehost_ptrace(&h, USER, debugger, TRACEHOST_PT_DETACH, target, 0, &reply);
        wanted(reply.kind == TRACEHOST_OK, "detach");
    }
    double took = seconds() - began;
    tracehost_close(&h);
    return took;
}

static double churn(long rounds)
{
    tracehost h = open_session();
    tracehost_reply parent = spawn(&h, USER), reply;
    double began = seconds();
    for (long i = 0; i < rounds; i++) {
        tracehost_reply child = call(&h, parent.lwp, TRACEHOST_FORK);
        wanted(child.kind == TRACEHOST_NEW, "fork");
        wanted(call(&h, child.lwp, TRACEHOST_EXIT).kind == TRACEHOST_ENDED, "exit");
        tracehost_wait4(&h, USER, parent.pid, -1, 0, &reply);
        wanted(reply.kind == TRACEHOST_STATUS && reply.pid == child.pid, "wait4");
    }
    double took = seconds() - began;
    tracehost_close(&h);
    return took;
}

static double text(long rounds, bool json)
{
    static const char *const lines[] = {
        "{\"user\":1001,\"op\":\"ptrace\",\"caller\":1000,\"request\":\"PT_ATTACH\",\"target\":1001}",
        "{\"user\":1001,\"op\":\"wait4\",\"caller\":1000,\"which\":1001}",
        "{\"user\":1001,\"op\":\"ptrace\",\"caller\":1000,\"request\":\"PT_DETACH\",\"target\":1001,\"data\":0}",
    };
    uint8_t out[256];
    size_t lengths[3], length;
    tracehost h = open_session();
    wanted(spawn(&h, USER).pid == DEBUGGER && spawn(&h, USER).pid == TARGET, "spawn");
    for (int i = 0; i < 3; i++)
        lengths[i] = strlen(lines[i]);
    double began = seconds();
    for (long i = 0; i < rounds; i++)
        for (int k = 0; k < 3; k++) {
            uint32_t code = tracehost_line(&h, json, (const uint8_t *)lines[k], lengths[k], out, sizeof out, &length);
            wanted(code == TRACEHOST_ANSWERED && length < sizeof out, "line");
        }
    double took = seconds() - began;
    wanted(strstr((char *)out, "ok") != NULL, "detach");
    tracehost_close(&h);
    return took;
}

#ifndef WITHOUT_CLIENT
static double client(long rounds, th_host *h)
{
    th_caller self = {USER, DEBUGGER};
    int status;
    wanted(h != NULL && th_spawn(h, USER, NULL, NULL) == 0 && th_spawn(h, USER, NULL, NULL) == 0, "spawn");
    double began = seconds();
    for (long i = 0; i < rounds; i++) {
        wanted(th_ptrace(h, self, TH_PT_ATTACH, TARGET, NULL, 0) == 0, "attach");
        wanted(th_wait4(h, self, TARGET, &status, 0) == TARGET, "wait4");
        wanted(th_ptrace(h, self, TH_PT_DETACH, TARGET, NULL, 0) == 0, "detach");
    }
    double took = seconds() - began;
    th_close(h);
    return took;
}
#endif

int main(int argc, char **argv)
{
    wanted(argc >= 3, "usage: steps WAY STEPS [history | users]");
    bool is_churn = strcmp(argv[1], "churn") == 0;
    long steps_of_round = is_churn ? 5 : 3, rounds = atol(argv[2]) / steps_of_round;
    double took = 0;
    if (strcmp(argv[1], "typed") == 0)
        took = typed(rounds, argc > 3 ? argv[3] : "");
    else if (is_churn)
        took = churn(rounds);
    else if (strcmp(argv[1], "text") == 0 || strcmp(argv[1], "json") == 0)
        took = text(rounds, argv[1][0] == 'j');
#ifndef WITHOUT_CLIENT
    else
        took = client(rounds, th_open(NULL));
#endif
    printf("%.1f\n", took / (double)(rounds * steps_of_round) * 1e9);
    return 0;
}
