/*
 * Takes one view of a user beside full users. bench/in_process.py counts the instructions of `look`.
 *
 *     views OWN FULL
 *
 * The user has OWN processes of one LWP, born after FULL other users' 250 processes and 1,000 LWPs.
 */
#include <stdio.h>
#include <stdlib.h>
#include <tracehost.h>

enum { USER = 1001, MAX_PROCESSES = 250, MAX_LWPS = 1000 };

static tracehost_process processes[MAX_PROCESSES];
static tracehost_lwp lwps[MAX_LWPS];

static void wanted(int truth, const char *what)
{
    if (!truth) {
        fprintf(stderr, "views: %s\n", what);
        exit(1);
    }
}

static uint32_t spawn(tracehost *h, uint32_t user)
{
    tracehost_reply reply;
    wanted(tracehost_spawn(h, user, &reply) == TRACEHOST_ANSWERED && reply.kind == TRACEHOST_NEW, "spawn");
    return reply.lwp;
}

/* the LWP makes one more in its process, by thr_new(2) */
static void add_lwp(tracehost *h, uint32_t user, uint32_t lwp)
{
    tracehost_reply reply;
    tracehost_turn(h, user, lwp, TRACEHOST_ENTER, TRACEHOST_THR_NEW, 0, &reply);
    wanted(reply.kind == TRACEHOST_OK, "thr_new");
    tracehost_turn(h, user, lwp, TRACEHOST_LEAVE_CALL, 0, 0, &reply);
    wanted(reply.kind == TRACEHOST_NEW, "the new LWP");
}

static void fill(tracehost *h, uint32_t user)
{
    for (int i = 0; i < MAX_PROCESSES; i++) {
        uint32_t lwp = spawn(h, user);
        for (int more = 1; more < MAX_LWPS / MAX_PROCESSES; more++)
            add_lwp(h, user, lwp);
    }
}

static void view(tracehost *h, uint32_t user, size_t process_count, size_t lwp_count)
{
    size_t processes_length, lwps_length;
    uint32_t code = tracehost_view(h, user, processes, MAX_PROCESSES, lwps, MAX_LWPS, &processes_length, &lwps_length);
    wanted(code == TRACEHOST_ANSWERED, "tracehost_view");
    wanted(processes_length == process_count && lwps_length == lwp_count, "not the rows that there are");
}

/* its own function, so that callgrind can count only here */
__attribute__((noinline)) static void look(tracehost *h, size_t own)
{
    view(h, USER, own, own);
}

int main(int count, char **words)
{
    wanted(count == 3, "OWN and FULL");
    size_t own = strtoul(words[1], NULL, 10);
    uint32_t full = (uint32_t)strtoul(words[2], NULL, 10);
    tracehost h = TRACEHOST_CLOSED;
    wanted(tracehost_open(true, &h) == TRACEHOST_ANSWERED, "tracehost_open");
    for (uint32_t user = USER + 1; user <= USER + full; user++) {
        fill(&h, user);
        view(&h, user, MAX_PROCESSES, MAX_LWPS);
    }
    for (size_t i = 0; i < own; i++)
        spawn(&h, USER);
    for (int i = 0; i < 16; i++)
        view(&h, USER, own, own); /* then malloc has memory of these sizes at hand */
    look(&h, own);
    tracehost_close(&h);
    return 0;
}
