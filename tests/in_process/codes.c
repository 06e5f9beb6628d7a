/*
 * What calls return: 1 on a handle that isn't open, 3 for numbers that don't exist, and exactly for these. After both, the
 * session and all that the pointers lead to are as before.
 */
#include "calls.h"

static tracehost h = TRACEHOST_CLOSED;
static tracehost_reply reply, before;
static const tracehost_rule rule = {0, 0, TRACEHOST_DECLINE, 0};
static unsigned long answered;

/* Checks a call with `code`, which may only write if it has answered. */
#define RETURNS(code, call)                                                                 \
    do {                                                                                    \
        memset(&reply, 0xa5, sizeof reply);                                                 \
        before = reply;                                                                     \
        CHECK((call) == (code));                                                            \
        answered += (code) == TRACEHOST_ANSWERED;                                           \
        CHECK(((code) == TRACEHOST_ANSWERED) != (memcmp(&reply, &before, sizeof reply) == 0)); \
    } while (0)

/* The number of the user's next step, by a step that changes nothing. */
static unsigned long next_number(uint32_t user)
{
    char line[60];
    uint8_t out[80];
    size_t length;
    int count = snprintf(line, sizeof line, "{\"user\":%u,\"op\":\"list\",\"caller\":1}", (unsigned)user);
    CHECK(tracehost_line(&h, false, (const uint8_t *)line, (size_t)count, out, sizeof out - 1, &length) == 0);
    out[length] = 0;
    return strtoul(strchr((char *)out, ' '), NULL, 10);
}

/* Each call of a user, with numbers that exist but perhaps for the user's. */
static void each_call(tracehost *of, uint32_t user, uint32_t code)
{
    tracehost_process processes[1] = {{.pid = 7}};
    tracehost_lwp lwps[1] = {{.lwp = 7}};
    size_t counts[2] = {9, 9};
    RETURNS(code, tracehost_spawn(of, user, &reply));
    RETURNS(code, tracehost_list(of, user, 1000, &reply));
    RETURNS(code, tracehost_sigaction(of, user, 1000, 2, 0, &reply));
    RETURNS(code, tracehost_kill(of, user, 1000, 1000, 0, &reply));
    RETURNS(code, tracehost_wait4(of, user, 1000, -1, 0, &reply));
    RETURNS(code, tracehost_install(of, user, 1000, &rule, 1, &reply));
    RETURNS(code, tracehost_handle(of, user, 1000, &reply));
    RETURNS(code, tracehost_ptrace(of, user, 1000, TRACEHOST_PT_ATTACH, 1001, 0, &reply));
    RETURNS(code, tracehost_turn(of, user, 100000, TRACEHOST_COMPUTE, 0, 0, &reply));
    CHECK(tracehost_view(of, user, processes, 1, lwps, 1, &counts[0], &counts[1]) == code);
    if (code != TRACEHOST_ANSWERED)
        CHECK(processes[0].pid == 7 && lwps[0].lwp == 7 && counts[0] == 9 && counts[1] == 9);
}

static void on_a_closed_handle(tracehost *closed)
{
    uint8_t out[4] = "abc";
    const uint8_t spawn[] = "{\"user\":1001,\"op\":\"spawn\"}";
    uint32_t numbers[1] = {7};
    tracehost to = TRACEHOST_CLOSED;
    size_t length = 9;
    const uint32_t code = TRACEHOST_NOT_OPEN;
    CHECK(tracehost_close(closed) == code && closed->tag == 0);
    CHECK(tracehost_copy(closed, &to) == code && to.session == NULL && to.tag == 0);
    CHECK(tracehost_line(closed, false, spawn, sizeof spawn - 1, out, 3, &length) == code);
    CHECK(tracehost_last_line(closed, false, out, 3, &length) == code);
    CHECK(tracehost_numbers(closed, numbers, 1, &length) == code && numbers[0] == 7);
    CHECK(strcmp((char *)out, "abc") == 0 && length == 9);
    each_call(closed, FIRST_USER, code);
    each_call(closed, 0, code); /* also if a number doesn't exist */
    RETURNS(code, tracehost_turn(closed, FIRST_USER, 100000, 9, 9, 9, &reply));
}

/* A handle of zeros, one that was closed, and one that is the constant of the header. */
static void on_closed_handles(void)
{
    tracehost zeros, closed = TRACEHOST_CLOSED, constant = TRACEHOST_CLOSED;
    memset(&zeros, 0, sizeof zeros);
    CHECK(tracehost_open(true, &closed) == TRACEHOST_ANSWERED && closed.tag != 0);
    CHECK(tracehost_close(&closed) == TRACEHOST_ANSWERED && closed.tag == 0);
    on_a_closed_handle(&zeros);
    on_a_closed_handle(&closed);
    on_a_closed_handle(&constant);
    /* each of them can be opened, and is copied into */
    CHECK(tracehost_open(true, &zeros) == 0 && tracehost_copy(&zeros, &closed) == 0 && closed.tag != 0);
    CHECK(tracehost_open(false, &constant) == 0);
    CHECK(tracehost_close(&zeros) == 0 && tracehost_close(&closed) == 0 && tracehost_close(&constant) == 0);
}

/* An open handle can't be opened, nor copied into; both sessions are as before. A handle may be moved. */
static void on_an_open_handle(void)
{
    tracehost other = TRACEHOST_CLOSED, moved;
    void *session = h.session;
    CHECK(tracehost_open(true, &h) == TRACEHOST_NOT_OPEN && h.tag != 0 && h.session == session);
    CHECK(tracehost_open(true, &other) == TRACEHOST_ANSWERED);
    RETURNS(TRACEHOST_ANSWERED, tracehost_spawn(&other, 1003, &reply));
    CHECK(tracehost_copy(&h, &other) == TRACEHOST_NOT_OPEN && tracehost_copy(&other, &h) == TRACEHOST_NOT_OPEN);
    moved = other;
    RETURNS(TRACEHOST_ANSWERED, tracehost_spawn(&moved, 1003, &reply));
    CHECK(reply.pid == 3001);
    CHECK(tracehost_close(&moved) == TRACEHOST_ANSWERED && tracehost_close(&moved) == TRACEHOST_NOT_OPEN);
}

/* Users are 1001 to 1064, requests those of the header, and so on: each number at both sides of a limit. */
static void numbers_that_do_not_exist(void)
{
    const uint32_t users[] = {0, FIRST_USER - 1, LAST_USER + 1, 0x80000000u + FIRST_USER, UINT32_MAX};
    const uint32_t bad = TRACEHOST_INVALID, good = TRACEHOST_ANSWERED;
    for (size_t i = 0; i < sizeof users / sizeof *users; i++)
        each_call(&h, users[i], bad);
    for (uint32_t n = 0; n < 300; n++) {
        uint32_t n_or_huge = n < 260 ? n : UINT32_MAX - n + 260;
        bool is_request = n == 0 || (n >= 7 && n <= 11) || (n >= 13 && n <= 15) || (n >= 18 && n <= 26);
        RETURNS(is_request ? good : bad, tracehost_ptrace(&h, 1001, 1, n_or_huge, 1001, 0, &reply));
        RETURNS(n <= 2 ? good : bad, tracehost_sigaction(&h, 1001, 1, 2, n_or_huge, &reply));
        RETURNS(n <= 7 ? good : bad, tracehost_wait4(&h, 1001, 1, -1, n_or_huge, &reply));
        RETURNS(n <= 4 ? good : bad, tracehost_turn(&h, 1001, 1, n_or_huge, 0, 0, &reply));
        RETURNS(n <= 6 ? good : bad, tracehost_turn(&h, 1001, 1, TRACEHOST_ENTER, n_or_huge, 0, &reply));
        RETURNS(n <= 255 ? good : bad, tracehost_turn(&h, 1001, 1, TRACEHOST_ENTER, TRACEHOST_EXIT, n_or_huge, &reply));
    }
    RETURNS(good, tracehost_turn(&h, 1001, 1, TRACEHOST_BLOCK, 0, INT32_MAX, &reply)); /* the signals 1 to 31 */
    RETURNS(bad, tracehost_turn(&h, 1001, 1, TRACEHOST_BLOCK, 0, UINT32_C(1) << 31, &reply));
    RETURNS(bad, tracehost_turn(&h, 1001, 1, TRACEHOST_BLOCK, 0, UINT32_MAX, &reply));
}

/* Numbers that every call takes, whatever they are. Also `call` and `argument`, if the act has none. */
static void numbers_that_may_be_any(void)
{
    const uint32_t words[] = {0, 1, 255, 256, 999, 1000, INT32_MAX, UINT32_C(1) << 31, UINT32_MAX};
    const int64_t wide[] = {INT64_MIN, -(INT64_C(1) << 32) - 1, INT32_MIN, -1, 0, 1, UINT32_MAX, INT64_C(1) << 32, INT64_MAX};
    const uint32_t good = TRACEHOST_ANSWERED;
    for (size_t i = 0; i < sizeof words / sizeof *words; i++) {
        uint32_t n = words[i];
        RETURNS(good, tracehost_list(&h, 1001, n, &reply));
        RETURNS(good, tracehost_sigaction(&h, 1001, n, n, 0, &reply));
        RETURNS(good, tracehost_install(&h, 1001, n, &rule, 1, &reply));
        RETURNS(good, tracehost_handle(&h, 1001, n, &reply));
        for (size_t r = 0; r < sizeof requests / sizeof *requests; r++)
            RETURNS(good, tracehost_ptrace(&h, 1001, n, requests[r].number, n, n, &reply));
        RETURNS(good, tracehost_turn(&h, 1001, n, TRACEHOST_RAISE, n, n, &reply));
        RETURNS(good, tracehost_turn(&h, 1001, n, TRACEHOST_ENTER, TRACEHOST_OTHER, n, &reply));
        RETURNS(good, tracehost_turn(&h, 1001, n, TRACEHOST_ENTER, TRACEHOST_FORK, n, &reply));
        RETURNS(good, tracehost_turn(&h, 1001, n, TRACEHOST_COMPUTE, n, n, &reply));
        RETURNS(good, tracehost_turn(&h, 1001, n, TRACEHOST_LEAVE_CALL, n, n, &reply));
        RETURNS(good, tracehost_kill(&h, 1001, 1, wide[i], n, &reply));
        RETURNS(good, tracehost_wait4(&h, 1001, n, wide[i], 0, &reply));
    }
}

/* Rules: at most 16, with flags of a stop, signals up to 31, and decisions that exist. */
static void rules(void)
{
    const struct { uint32_t code; tracehost_rule rule; } each[] = {
        {0, {511, 31, TRACEHOST_CONTINUE, 31}}, {0, {0, 0, TRACEHOST_DETACH, 0}}, {0, {0, 1, TRACEHOST_KILL, 99}},
        {0, {0, 0, TRACEHOST_LEAVE, UINT32_MAX}}, {0, {0, 0, TRACEHOST_DECLINE, 32}}, {3, {512, 0, TRACEHOST_KILL, 0}},
        {3, {UINT32_MAX, 0, TRACEHOST_KILL, 0}}, {3, {0, 32, TRACEHOST_KILL, 0}}, {3, {0, UINT32_MAX, TRACEHOST_KILL, 0}},
        {3, {0, 0, 5, 0}}, {3, {0, 0, UINT32_MAX, 0}}, {3, {0, 0, TRACEHOST_CONTINUE, 32}},
        {3, {0, 0, TRACEHOST_DETACH, 32}}, {3, {0, 0, TRACEHOST_DETACH, UINT32_MAX}}};
    tracehost_rule *many = calloc(17, sizeof *many);
    CHECK(many != NULL);
    for (size_t i = 0; i < sizeof each / sizeof *each; i++)
        for (size_t place = 0; place < 16; place += 5) { /* the place in the list is the same to all of them */
            many[place] = each[i].rule;
            RETURNS(each[i].code, tracehost_install(&h, 1001, 1, many, 16, &reply));
            RETURNS(TRACEHOST_ANSWERED, tracehost_install(&h, 1001, 1, many, place, &reply));
            many[place] = many[16];
        }
    RETURNS(TRACEHOST_INVALID, tracehost_install(&h, 1001, 1, many, 17, &reply));
    free(many);
}

int main(void)
{
    on_closed_handles();
    CHECK(tracehost_open(true, &h) == TRACEHOST_ANSWERED);
    CHECK(next_number(1001) == 1);
    on_an_open_handle();
    answered = 0;
    numbers_that_do_not_exist();
    numbers_that_may_be_any();
    rules();
    CHECK(next_number(1001) == answered + 2); /* what was refused isn't counted */
    for (uint32_t user = FIRST_USER; user <= LAST_USER; user++)
        each_call(&h, user, TRACEHOST_ANSWERED);
    CHECK(next_number(1064) == 10);
    CHECK(tracehost_close(&h) == TRACEHOST_ANSWERED);
    printf("%lu checks\n", checks);
    return 0;
}
