/*
 * Calls by chance, made twice: as typed calls on one session, and as lines on another. The reply in the struct, written in
 * words, has to be the line's, and so has tracehost_last_line.
 *
 *     agree CALLS [SEED]
 */
#include "calls.h"

enum { CALLS_OF_A_SESSION = 150, FIRST_SPAWNS = 8 };

/*
 * The fields that a kind of reply has, as the header lists them; all others have to be 0. The stop that a handler was
 * shown is of the process that the wait is for, and no line has its number again.
 */
static bool has_only_its_fields(tracehost_reply r)
{
    const uint32_t kind = r.kind;
    const bool handled = kind == TRACEHOST_HANDLED, info = kind == TRACEHOST_INFO, is_new = kind == TRACEHOST_NEW;
    const bool status = kind == TRACEHOST_STATUS, stopped = kind == TRACEHOST_STOPPED;
    r.kind = 0;
    r.stop_pid = handled && r.stop_pid == r.pid ? 0 : r.stop_pid;
    r.pid = is_new || status || handled ? 0 : r.pid;
    r.lwp = is_new || info || handled || stopped ? 0 : r.lwp;
    r.number = kind == TRACEHOST_NUMBER ? 0 : r.number;
    r.status = status || handled || kind == TRACEHOST_ENDED ? 0 : r.status;
    r.signal = handled || stopped || kind == TRACEHOST_CAUGHT ? 0 : r.signal;
    r.event = info ? 0 : r.event;
    r.flags = info || handled || stopped ? 0 : r.flags;
    r.mask = info || kind == TRACEHOST_MASK ? 0 : r.mask;
    r.pending = info ? 0 : r.pending;
    r.child = info || handled ? 0 : r.child;
    r.code = info || handled ? 0 : r.code;
    r.handler = handled && r.has_handler == 1 ? 0 : r.handler; /* 0 if all handlers declined */
    r.pass = handled && (r.decision == TRACEHOST_CONTINUE || r.decision == TRACEHOST_DETACH) ? 0 : r.pass;
    r.has_handler = handled && r.has_handler == 1 ? 0 : r.has_handler;
    r.decision = handled ? 0 : r.decision;
    r.error = kind == TRACEHOST_ERROR ? 0 : r.error;
    r.count = kind == TRACEHOST_LWPS || kind == TRACEHOST_PIDS ? 0 : r.count;
    static const tracehost_reply zeros;
    return memcmp(&r, &zeros, sizeof r) == 0;
}

static struct call a_spawn(uint32_t user)
{
    struct call spawn = {.op = SPAWN, .user = FIRST_USER + user};
    return spawn;
}

int main(int argc, char **argv)
{
    static struct text line, wanted, made;
    unsigned long calls = strtoul(argc > 1 ? argv[1] : "1000", NULL, 10), kinds[TRACEHOST_ERROR + 1] = {0};
    tracehost typed = TRACEHOST_CLOSED, text = TRACEHOST_CLOSED;
    unsigned long counts[2] = {0, 0};
    dice = strtoull(argc > 2 ? argv[2] : "1", NULL, 10);
    for (unsigned long n = 0; n < calls; n++) {
        tracehost_reply reply;
        if (n % CALLS_OF_A_SESSION == 0) {
            bool kills = roll(2);
            CHECK(tracehost_close(&typed) == (n ? TRACEHOST_ANSWERED : TRACEHOST_NOT_OPEN));
            CHECK(tracehost_close(&text) == (n ? TRACEHOST_ANSWERED : TRACEHOST_NOT_OPEN));
            CHECK(tracehost_open(kills, &typed) == 0 && tracehost_open(kills, &text) == 0);
            counts[0] = counts[1] = 0;
        }
        struct call call = n % CALLS_OF_A_SESSION < FIRST_SPAWNS ? a_spawn(n % 2) : choose();
        line.length = made.length = 0;
        add_line(&line, &call);
        memset(&reply, 0xa5, sizeof reply);
        CHECK(tracehost_line(&text, false, (const uint8_t *)line.bytes, line.length, (uint8_t *)wanted.bytes, ROOM,
                             &wanted.length) == TRACEHOST_ANSWERED);
        counts[call.user - FIRST_USER]++;
        CHECK(make(&typed, &call, &reply) == TRACEHOST_ANSWERED);
        CHECK(reply.kind <= TRACEHOST_ERROR && has_only_its_fields(reply));
        kinds[reply.kind]++;
        ADD(&made, "%" PRIu32 " %lu ", call.user, counts[call.user - FIRST_USER]);
        add_reply(&made, &typed, &reply);
        ADD(&made, "\n");
        if (made.length != wanted.length || memcmp(made.bytes, wanted.bytes, made.length) != 0) {
            printf("%s\n  by text: %.*s  typed:   %s", line.bytes, (int)wanted.length, wanted.bytes, made.bytes);
            return 1;
        }
        made.length = 0;
        CHECK(tracehost_last_line(&typed, false, (uint8_t *)made.bytes, ROOM, &made.length) == TRACEHOST_ANSWERED);
        CHECK(made.length == wanted.length && memcmp(made.bytes, wanted.bytes, made.length) == 0);
    }
    tracehost_close(&typed);
    tracehost_close(&text);
    unsigned long least = calls;
    for (size_t kind = 0; kind <= TRACEHOST_ERROR; kind++)
        least = kinds[kind] < least ? kinds[kind] : least;
    printf("%lu calls agree, of each kind of reply at least %lu\n", calls, least);
    return calls >= 50000 && least == 0;
}
