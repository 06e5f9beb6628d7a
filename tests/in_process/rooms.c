/*
 * Rooms of every size from 0 to one more than what is stored: as much as fits is stored, the whole length is reported,
 * nothing behind is written, and the session is the same whatever the room. Each room is a block of its own, so that the
 * sanitizers and valgrind see a byte that is read or written behind it.
 */
#include "calls.h"

enum { BEHIND = 64, FILL = 0xa5, LWPS = 7, PROCESSES = 4 };

static tracehost h = TRACEHOST_CLOSED, twin = TRACEHOST_CLOSED; /* the twin makes the same steps, with enough room */

/* A block of `bytes` and, if `guarded`, of some more behind, all filled. */
static uint8_t *block(size_t bytes, bool guarded)
{
    size_t size = bytes + (guarded ? BEHIND : 0);
    uint8_t *made = malloc(size ? size : 1);
    CHECK(made != NULL);
    memset(made, FILL, size);
    return made;
}

static bool is_filled(const uint8_t *from, const uint8_t *to)
{
    while (from < to && *from == FILL)
        from++;
    return from == to;
}

/* Checks what a block of `bytes` has, and frees it: the front of `whole`, and else what filled it. */
static void has_front(uint8_t *made, size_t bytes, bool guarded, const void *whole, size_t whole_bytes)
{
    size_t stored = bytes < whole_bytes ? bytes : whole_bytes;
    CHECK(memcmp(made, whole, stored) == 0);
    CHECK(is_filled(made + stored, made + bytes + (guarded ? BEHIND : 0)));
    free(made);
}

/* A line that is answered in each room, and its answer once more in each. Returns the length of the answer. */
static size_t a_line(bool json, const char *line)
{
    static uint8_t whole[ROOM];
    size_t whole_length = 1, length;
    for (size_t size = 0; size <= whole_length + 1; size++) {
        CHECK(tracehost_line(&twin, json, (const uint8_t *)line, strlen(line), whole, ROOM, &whole_length) == 0);
        CHECK(whole_length > 0 && whole_length < ROOM && whole[whole_length - 1] == '\n');
        bool guarded = size % 2;
        uint8_t *out = block(size, guarded);
        length = 0;
        CHECK(tracehost_line(&h, json, (const uint8_t *)line, strlen(line), out, size, &length) == 0);
        CHECK(length == whole_length);
        has_front(out, size, guarded, whole, whole_length);
    }
    CHECK(tracehost_last_line(&twin, json, whole, ROOM, &whole_length) == 0);
    for (size_t size = 0; size <= whole_length + 1; size++) {
        uint8_t *out = block(size, size % 2);
        CHECK(tracehost_last_line(&h, json, out, size, &length) == 0 && length == whole_length);
        has_front(out, size, size % 2, whole, whole_length);
    }
    return whole_length;
}

static void lines(void)
{
    static const char *const each[] = {
        "{\"user\":1001,\"op\":\"list\",\"caller\":1000}",
        "{\"user\":1001,\"op\":\"ptrace\",\"caller\":1000,\"request\":\"PT_GETLWPLIST\",\"target\":1001,\"data\":9}",
        "{\"user\":1001,\"op\":\"ptrace\",\"caller\":1000,\"request\":\"PT_LWPINFO\",\"target\":1001,\"data\":0}",
        "{\"user\":1001,\"op\":\"ptrace\",\"caller\":1000,\"request\":\"PT_ATTACH\",\"target\":1,\"data\":0}",
        "{\"user\":1001,\"op\":\"fly\"}", ""};
    for (size_t i = 0; i < sizeof each / sizeof *each; i++) {
        CHECK(a_line(false, each[i]) > 10);
        CHECK(a_line(true, each[i]) > 20);
    }
}

/* The numbers of the last answer, which is a list of `count`. */
static void numbers(const uint32_t *whole, size_t count)
{
    for (size_t size = 0; size <= count + 1; size++) {
        size_t length = 0, bytes = size * sizeof *whole;
        uint8_t *out = block(bytes, size % 2);
        CHECK(tracehost_numbers(&h, (uint32_t *)(void *)out, size, &length) == 0 && length == count);
        has_front(out, bytes, size % 2, whole, count * sizeof *whole);
    }
}

static void lists(void)
{
    static const uint32_t pids[PROCESSES] = {1000, 1001, 1002, 1003};
    static const uint32_t lwps[] = {100001, 100004, 100005, 100006};
    tracehost_reply reply;
    CHECK(tracehost_list(&h, 1001, 1000, &reply) == 0 && reply.kind == TRACEHOST_PIDS && reply.count == PROCESSES);
    numbers(pids, PROCESSES);
    /* PT_GETLWPLIST has a room of its own, as in ptrace(2): it lists as many LWPs as its data says */
    for (uint32_t data = 1; data <= 5; data++) {
        size_t count = data < 4 ? data : 4;
        CHECK(tracehost_ptrace(&h, 1001, 1000, TRACEHOST_PT_GETLWPLIST, 1001, data, &reply) == 0);
        CHECK(reply.kind == TRACEHOST_LWPS && reply.count == count);
        numbers(lwps, count);
    }
    CHECK(tracehost_spawn(&h, 1002, &reply) == 0 && tracehost_spawn(&twin, 1002, &reply) == 0);
    numbers(lwps, 0);
}

/* The view of a user in all rooms for both kinds of rows. */
static void view(uint32_t user, size_t process_count, size_t lwp_count)
{
    tracehost_process processes[PROCESSES + 1];
    tracehost_lwp lwps[LWPS + 1];
    size_t lengths[2] = {99, 99};
    CHECK(tracehost_view(&twin, user, processes, PROCESSES + 1, lwps, LWPS + 1, &lengths[0], &lengths[1]) == 0);
    CHECK(lengths[0] == process_count && lengths[1] == lwp_count);
    for (size_t p = 0; p <= process_count + 1; p++)
        for (size_t l = 0; l <= lwp_count + 1; l++) {
            bool guarded = (p + l) % 2;
            uint8_t *made[2] = {block(p * sizeof *processes, guarded), block(l * sizeof *lwps, guarded)};
            lengths[0] = lengths[1] = 99;
            CHECK(tracehost_view(&h, user, (tracehost_process *)(void *)made[0], p, (tracehost_lwp *)(void *)made[1], l,
                                 &lengths[0], &lengths[1]) == 0);
            CHECK(lengths[0] == process_count && lengths[1] == lwp_count);
            has_front(made[0], p * sizeof *processes, guarded, processes, process_count * sizeof *processes);
            has_front(made[1], l * sizeof *lwps, guarded, lwps, lwp_count * sizeof *lwps);
        }
}

/* Makes a call on both sessions: TWICE(tracehost_spawn, 1001). */
#define TWICE(call, ...) \
    CHECK(call(&h, __VA_ARGS__, &reply) == 0 && reply.kind != TRACEHOST_ERROR && call(&twin, __VA_ARGS__, &reply) == 0)

/* Four processes; the second has four LWPs, and is stopped by its debugger, the first. */
static void begin(void)
{
    tracehost_reply reply;
    uint8_t out[1];
    size_t length = 9;
    CHECK(tracehost_open(true, &h) == 0 && tracehost_open(true, &twin) == 0);
    CHECK(tracehost_last_line(&h, false, out, 1, &length) == 0 && length == 0);
    for (int i = 0; i < PROCESSES; i++)
        TWICE(tracehost_spawn, 1001);
    for (int i = 0; i < LWPS - PROCESSES; i++) {
        TWICE(tracehost_turn, 1001, 100001, TRACEHOST_ENTER, TRACEHOST_THR_NEW, 0);
        TWICE(tracehost_turn, 1001, 100001, TRACEHOST_LEAVE_CALL, 0, 0);
    }
    TWICE(tracehost_ptrace, 1001, 1000, TRACEHOST_PT_ATTACH, 1001, 0);
    TWICE(tracehost_wait4, 1001, 1000, 1001, 0);
}

/* The answers so far, and the rows, are those of the session with enough room. */
static void is_as_the_twin(void)
{
    static uint8_t out[2][ROOM];
    size_t length[2];
    tracehost_reply reply;
    for (uint32_t user = 1001; user <= 1003; user++) {
        CHECK(tracehost_spawn(&h, user, &reply) == 0 && tracehost_spawn(&twin, user, &reply) == 0);
        CHECK(tracehost_last_line(&h, true, out[0], ROOM, &length[0]) == 0);
        CHECK(tracehost_last_line(&twin, true, out[1], ROOM, &length[1]) == 0);
        CHECK(length[0] == length[1] && memcmp(out[0], out[1], length[0]) == 0);
    }
}

int main(void)
{
    begin();
    lines();
    view(1001, PROCESSES, LWPS);
    view(1002, 0, 0);
    is_as_the_twin();
    CHECK(tracehost_close(&h) == 0 && tracehost_close(&twin) == 0);
    begin();
    lists();
    view(1002, 1, 1);
    CHECK(tracehost_close(&h) == 0 && tracehost_close(&twin) == 0);
    printf("%lu checks\n", checks);
    return 0;
}
