/*
 * Handles that aren't open: of zeros, closed, and memory that was never a handle. Each call on them is NOT_OPEN, and writes
 * nothing. And the words of the codes.
 *
 *     handles [ROUNDS]
 */
#include "calls.h"

/* All calls on a handle that isn't open, except tracehost_open. */
static void are_refused(tracehost *h)
{
    const tracehost before = *h;
    const uint8_t spawn[] = "{\"user\":1001,\"op\":\"spawn\"}";
    const tracehost_rule rule = {0, 0, TRACEHOST_DECLINE, 0};
    tracehost_reply reply = {.kind = 77};
    tracehost_process process = {.pid = 7};
    tracehost_lwp lwp = {.lwp = 7};
    tracehost other = TRACEHOST_CLOSED;
    uint8_t out[2] = "a";
    uint32_t number = 7;
    size_t length = 9, count = 9;
    const uint32_t codes[] = {
        tracehost_close(h), tracehost_copy(h, &other),
        tracehost_line(h, false, spawn, sizeof spawn - 1, out, 1, &length), tracehost_last_line(h, true, out, 1, &length),
        tracehost_numbers(h, &number, 1, &length), tracehost_view(h, FIRST_USER, &process, 1, &lwp, 1, &length, &count),
        tracehost_spawn(h, FIRST_USER, &reply), tracehost_list(h, FIRST_USER, 1000, &reply),
        tracehost_sigaction(h, FIRST_USER, 1000, 2, 0, &reply), tracehost_kill(h, FIRST_USER, 1000, 1000, 0, &reply),
        tracehost_wait4(h, FIRST_USER, 1000, -1, 0, &reply), tracehost_install(h, FIRST_USER, 1000, &rule, 1, &reply),
        tracehost_handle(h, FIRST_USER, 1000, &reply),
        tracehost_ptrace(h, FIRST_USER, 1000, TRACEHOST_PT_ATTACH, 1001, 0, &reply),
        tracehost_turn(h, FIRST_USER, 100000, TRACEHOST_COMPUTE, 0, 0, &reply)};
    for (size_t i = 0; i < sizeof codes / sizeof *codes; i++)
        CHECK(codes[i] == TRACEHOST_NOT_OPEN);
    CHECK(reply.kind == 77 && process.pid == 7 && lwp.lwp == 7 && out[0] == 'a' && number == 7 && length == 9 && count == 9);
    CHECK(other.session == NULL && other.tag == 0 && h->session == before.session && h->tag == before.tag);
}

/* Memory that was never a handle. */
static void never_opened(unsigned long rounds)
{
    for (unsigned long i = 0; i < rounds; i++) {
        tracehost made = {(void *)(uintptr_t)roll(UINT32_MAX), (uint64_t)roll(UINT32_MAX) << (roll(2) ? 32 : 0) | roll(UINT32_MAX)};
        are_refused(&made);
    }
    for (unsigned byte = 0; byte < 256; byte++) {
        tracehost filled;
        memset(&filled, (int)byte, sizeof filled);
        are_refused(&filled);
    }
}

static void closed_again(void)
{
    tracehost h = TRACEHOST_CLOSED, moved;
    CHECK(tracehost_open(true, &h) == TRACEHOST_ANSWERED && h.tag != 0);
    moved = h;
    CHECK(tracehost_close(&moved) == TRACEHOST_ANSWERED && moved.session == NULL && moved.tag == 0);
    are_refused(&moved);
    CHECK(tracehost_open(false, &moved) == TRACEHOST_ANSWERED && tracehost_close(&moved) == TRACEHOST_ANSWERED);
    are_refused(&moved);
}

/* A copy over itself is refused, and leaves the session. */
static void over_itself(void)
{
    tracehost h = TRACEHOST_CLOSED, closed = TRACEHOST_CLOSED;
    tracehost_reply first, second;
    CHECK(tracehost_open(true, &h) == TRACEHOST_ANSWERED && tracehost_spawn(&h, FIRST_USER, &first) == TRACEHOST_ANSWERED);
    CHECK(tracehost_copy_over(&h, &h) == TRACEHOST_NOT_OPEN);
    CHECK(tracehost_copy_over(&h, &closed) == TRACEHOST_NOT_OPEN && tracehost_copy_over(&closed, &h) == TRACEHOST_NOT_OPEN);
    CHECK(tracehost_copy_user(&h, &h, FIRST_USER) == TRACEHOST_NOT_OPEN);
    CHECK(tracehost_copy_user(&h, &closed, FIRST_USER) == TRACEHOST_NOT_OPEN);
    CHECK(tracehost_copy_user(&closed, &h, FIRST_USER) == TRACEHOST_NOT_OPEN);
    CHECK(tracehost_spawn(&h, FIRST_USER, &second) == TRACEHOST_ANSWERED && second.pid == first.pid + 1);
    CHECK(tracehost_close(&h) == TRACEHOST_ANSWERED);
}

static void words(void)
{
    CHECK(strcmp(tracehost_version(), TRACEHOST_VERSION) == 0);
    CHECK(strcmp(tracehost_strerror(TRACEHOST_ANSWERED), "the call was answered") == 0);
    CHECK(strstr(tracehost_strerror(TRACEHOST_NOT_OPEN), "isn't open") != NULL);
    for (uint32_t i = 0; i <= TRACEHOST_TOO_MANY; i++)
        for (uint32_t j = 0; j <= TRACEHOST_TOO_MANY + 1; j++)
            CHECK((strcmp(tracehost_strerror(i), tracehost_strerror(j)) == 0) == (i == j));
    CHECK(strcmp(tracehost_strerror(TRACEHOST_TOO_MANY + 1), tracehost_strerror(UINT32_MAX)) == 0);
}

int main(int argc, char **argv)
{
    unsigned long rounds = argc > 1 ? strtoul(argv[1], NULL, 10) : 2000;
    tracehost zeros, closed = TRACEHOST_CLOSED;
    memset(&zeros, 0, sizeof zeros);
    are_refused(&zeros);
    are_refused(&closed);
    closed_again();
    over_itself();
    never_opened(rounds);
    words();
    printf("%lu checks\n", checks);
    return 0;
}
