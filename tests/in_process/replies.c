/*
 * Prints the replies to calls by chance, on sessions that are copied on the way. The library of bench/baseline, which has
 * only such calls, prints what libtracehost does.
 *
 *     replies CALLS [SEED]
 */
#include "calls.h"

enum { CALLS_OF_A_SESSION = 400, FIRST_SPAWNS = 8, FIELDS = sizeof(tracehost_reply) / sizeof(uint32_t) };

static tracehost sessions[2]; /* the second one is closed until it is a copy of the first one */

static void close_both(void)
{
    for (int s = 0; s < 2; s++)
        CHECK(sessions[s].session == NULL || tracehost_close(&sessions[s]) == TRACEHOST_ANSWERED);
}

/* One session becomes a copy of the other, or one of its users does. */
static void copy(void)
{
    if (sessions[1].session == NULL) {
        CHECK(tracehost_copy(&sessions[0], &sessions[1]) == TRACEHOST_ANSWERED);
    } else {
        tracehost *from = &sessions[roll(2)], *to = from == sessions ? from + 1 : sessions;
        if (roll(2))
            CHECK(tracehost_copy_over(from, to) == TRACEHOST_ANSWERED);
        else
            CHECK(tracehost_copy_user(from, to, FIRST_USER + roll(2)) == TRACEHOST_ANSWERED);
    }
}

/* A call with a number that isn't one of those that exist. */
static void spoil(struct call *c)
{
    switch (c->op) {
    case PTRACE: c->numbers[0] = roll(2) ? 12 : 27 + roll(2); break;
    case WAIT4: c->numbers[0] = 8 + roll(2); break;
    case SIGACTION: c->numbers[1] = 3; break;
    case TURN: c->numbers[1] = 5; break;
    default: c->user = roll(2) ? 1000 : 1065; break;
    }
}

static void print_list(tracehost *h, uint32_t count)
{
    static uint32_t numbers[TRACEHOST_MAX_LWPS];
    size_t length;
    CHECK(tracehost_numbers(h, numbers, TRACEHOST_MAX_LWPS, &length) == TRACEHOST_ANSWERED && length == count);
    for (size_t i = 0; i < length; i++)
        printf(" %" PRIu32, numbers[i]);
}

static void print_answer(tracehost *h, const struct call *c)
{
    tracehost_reply reply = {0};
    uint32_t fields[FIELDS], code = make(h, c, &reply);
    memcpy(fields, &reply, sizeof fields);
    printf("%" PRIu32 ":", code);
    for (size_t i = 0; i < FIELDS; i++)
        printf(" %" PRIu32, fields[i]);
    if (code == TRACEHOST_ANSWERED && (reply.kind == TRACEHOST_LWPS || reply.kind == TRACEHOST_PIDS))
        print_list(h, reply.count);
    printf("\n");
}

int main(int argc, char **argv)
{
    unsigned long calls = strtoul(argc > 1 ? argv[1] : "1000", NULL, 10);
    dice = strtoull(argc > 2 ? argv[2] : "1", NULL, 10);
    for (unsigned long n = 0; n < calls; n++) {
        struct call call = {.op = SPAWN, .user = FIRST_USER + n % 2};
        if (n % CALLS_OF_A_SESSION == 0) {
            close_both();
            CHECK(tracehost_open(roll(2), &sessions[0]) == TRACEHOST_ANSWERED);
        }
        if (n % CALLS_OF_A_SESSION >= FIRST_SPAWNS)
            call = choose();
        if (roll(60) == 0)
            spoil(&call);
        if (roll(40) == 0)
            copy();
        print_answer(&sessions[sessions[1].session != NULL && roll(2)], &call);
    }
    close_both();
    return 0;
}
