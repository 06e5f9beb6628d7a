/*
 * Times steps of the library on a host with many rows, and prints the nanoseconds of a step of each kind.
 *
 *     tables LWPS STEPS
 *
 * The LWPs are those of 64 users, eight in a process. Each user's first process traces every other one of the rest,
 * which are stopped. Random numbers by a fixed rule choose whom a step is about. bench/tables.py compiles and runs it.
 */
#define _POSIX_C_SOURCE 200809L

#include <stdio.h>
#include <stdlib.h>
#include <time.h>
#include <tracehost.h>

enum { USERS = 64, FIRST_USER = 1001, IN_A_PROCESS = 8, MOST = 1000 };

typedef struct user {
    uint32_t number, debugger;
    size_t tracees, runners;            /* how many there are of each */
    uint32_t tracee[MOST], stopped[MOST]; /* a traced process, and an LWP of it */
    uint32_t runner[MOST];              /* an LWP of a process that runs */
    size_t fresh;
    uint32_t added[MOST]; /* LWPs that a step has made, and none has ended */
} user;

static user users[USERS];
static tracehost host = TRACEHOST_CLOSED;
static tracehost_reply reply;
static uint64_t seed = 2026;

static size_t below(size_t bound)
{
    seed = seed * 6364136223846793005u + 1442695040888963407u;
    return (size_t)(seed >> 33) % bound;
}

static void wanted(uint32_t code, uint32_t kind)
{
    if (code == TRACEHOST_ANSWERED && reply.kind == kind)
        return;
    fprintf(stderr, "tables: code %u, reply %u in place of %u\n", code, reply.kind, kind);
    exit(1);
}

static void turn(const user *u, uint32_t lwp, uint32_t act, uint32_t call, uint32_t kind)
{
    wanted(tracehost_turn(&host, u->number, lwp, act, call, 0, &reply), kind);
}

static void ask(const user *u, uint32_t request, uint32_t target, uint32_t data, uint32_t kind)
{
    wanted(tracehost_ptrace(&host, u->number, u->debugger, request, target, data, &reply), kind);
}

static void make_lwp(user *u)
{
    uint32_t lwp = u->runner[below(u->runners)];
    turn(u, lwp, TRACEHOST_ENTER, TRACEHOST_THR_NEW, TRACEHOST_OK);
    turn(u, lwp, TRACEHOST_LEAVE_CALL, 0, TRACEHOST_NEW);
    u->added[u->fresh++] = reply.lwp;
}

static void end_lwp(user *u)
{
    size_t at = below(u->fresh);
    turn(u, u->added[at], TRACEHOST_ENTER, TRACEHOST_THR_EXIT, TRACEHOST_OK);
    turn(u, u->added[at], TRACEHOST_LEAVE_CALL, 0, TRACEHOST_OK);
    u->added[at] = u->added[--u->fresh];
}

static void read_lwp(user *u) { ask(u, TRACEHOST_PT_LWPINFO, u->stopped[below(u->tracees)], 0, TRACEHOST_INFO); }

static void suspend_lwp(user *u) { ask(u, TRACEHOST_PT_SUSPEND, u->stopped[below(u->tracees)], 0, TRACEHOST_OK); }

static void list_lwps(user *u)
{
    ask(u, TRACEHOST_PT_GETLWPLIST, u->tracee[below(u->tracees)], IN_A_PROCESS, TRACEHOST_LWPS);
}

static void list_processes(user *u) { wanted(tracehost_list(&host, u->number, u->debugger, &reply), TRACEHOST_PIDS); }

static void wait_for_any(user *u)
{
    wanted(tracehost_wait4(&host, u->number, u->debugger, -1, 0, &reply), TRACEHOST_NOTHING);
}

static void trace_again(user *u)
{
    uint32_t pid = u->tracee[below(u->tracees)];
    ask(u, TRACEHOST_PT_DETACH, pid, 0, TRACEHOST_OK);
    ask(u, TRACEHOST_PT_ATTACH, pid, 0, TRACEHOST_OK);
    wanted(tracehost_wait4(&host, u->number, u->debugger, pid, 0, &reply), TRACEHOST_STATUS);
}

static const struct { const char *name; void (*step)(user *); } kinds[] = {
    {"thr_new", make_lwp}, {"PT_LWPINFO", read_lwp}, {"PT_SUSPEND", suspend_lwp}, {"PT_GETLWPLIST", list_lwps},
    {"thr_exit", end_lwp}, {"list", list_processes}, {"wait4", wait_for_any}, {"detach and attach", trace_again},
};

static void fill(user *u, size_t processes)
{
    wanted(tracehost_spawn(&host, u->number, &reply), TRACEHOST_NEW);
    u->debugger = reply.pid;
    for (size_t i = 0; i < processes; i++) {
        wanted(tracehost_spawn(&host, u->number, &reply), TRACEHOST_NEW);
        uint32_t pid = reply.pid, lwp = reply.lwp;
        for (int more = 1; more < IN_A_PROCESS; more++) {
            turn(u, lwp, TRACEHOST_ENTER, TRACEHOST_THR_NEW, TRACEHOST_OK);
            turn(u, lwp, TRACEHOST_LEAVE_CALL, 0, TRACEHOST_NEW);
        }
        if (i % 2 == 0) {
            u->runner[u->runners++] = lwp;
            continue;
        }
        ask(u, TRACEHOST_PT_ATTACH, pid, 0, TRACEHOST_OK);
        wanted(tracehost_wait4(&host, u->number, u->debugger, pid, 0, &reply), TRACEHOST_STATUS);
        u->tracee[u->tracees] = pid;
        u->stopped[u->tracees++] = lwp;
    }
}

static double now(void)
{
    struct timespec time;
    clock_gettime(CLOCK_MONOTONIC, &time);
    return (double)time.tv_sec * 1e9 + (double)time.tv_nsec;
}

int main(int count, char **words)
{
    enum { KINDS = sizeof kinds / sizeof *kinds, ROUND = 50 };
    if (count != 3)
        return 2;
    size_t of_all = IN_A_PROCESS * USERS, processes = ((size_t)atol(words[1]) + of_all - 1) / of_all;
    long rounds = atol(words[2]) / ROUND;
    double spent[KINDS] = {0};
    if (processes < 2 || processes > 100 || rounds < 1 || tracehost_open(true, &host) != TRACEHOST_ANSWERED)
        return 2;
    for (size_t i = 0; i < USERS; i++) {
        users[i].number = FIRST_USER + (uint32_t)i;
        fill(&users[i], processes);
    }
    for (long round = 0; round < rounds; round++)
        for (size_t kind = 0; kind < KINDS; kind++) {
            double began = now();
            /* the same users for each kind: an LWP ends for a user that has just made one */
            for (int i = 0; i < ROUND; i++)
                kinds[kind].step(&users[(size_t)(round * ROUND + i) % USERS]);
            spent[kind] += now() - began;
        }
    for (size_t kind = 0; kind < KINDS; kind++)
        printf("%s\t%.0f\n", kinds[kind].name, spent[kind] / (double)(rounds * ROUND));
    tracehost_close(&host);
    return 0;
}
