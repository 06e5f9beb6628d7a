/*
 * From inside of the library an unwinder finds the callers: each allocation of a session notes the calls that lead to it, and
 * among them is that of main.
 *
 *     cc -Wl,--wrap=malloc,--wrap=realloc unwind.c libtracehost.a
 */
#include "check.h"
#include <execinfo.h>

enum { DEEP = 64 };
void *__real_malloc(size_t size);
void *__real_realloc(void *block, size_t size);
static bool is_watched;
static void *caller_of_main;
static unsigned long found, lost;

static void note_callers(void)
{
    void *callers[DEEP];
    int count;
    if (!is_watched)
        return;
    is_watched = false;
    count = backtrace(callers, DEEP);
    is_watched = true;
    for (int i = 0; i < count; i++)
        if (callers[i] == caller_of_main) {
            found++;
            return;
        }
    lost++;
}

void *__wrap_malloc(size_t size)
{
    note_callers();
    return __real_malloc(size);
}

void *__wrap_realloc(void *block, size_t size)
{
    note_callers();
    return __real_realloc(block, size);
}

int main(void)
{
    tracehost h = TRACEHOST_CLOSED, copy = TRACEHOST_CLOSED;
    tracehost_reply reply;
    uint8_t out[200];
    size_t length;
    const uint8_t spawn[] = "{\"user\":1002,\"op\":\"spawn\"}";
    void *callers[1];
    backtrace(callers, 1); /* its first call allocates */
    caller_of_main = __builtin_return_address(0);
    is_watched = true;
    CHECK(tracehost_open(true, &h) == TRACEHOST_ANSWERED);
    for (int i = 0; i < 250; i++)
        CHECK(tracehost_spawn(&h, FIRST_USER, &reply) == TRACEHOST_ANSWERED && reply.kind == TRACEHOST_NEW);
    CHECK(tracehost_line(&h, false, spawn, sizeof spawn - 1, out, sizeof out, &length) == TRACEHOST_ANSWERED);
    CHECK(tracehost_copy(&h, &copy) == TRACEHOST_ANSWERED);
    is_watched = false;
    CHECK(tracehost_close(&h) == TRACEHOST_ANSWERED && tracehost_close(&copy) == TRACEHOST_ANSWERED);
    printf("of %lu allocations, %lu without their callers\n", found + lost, lost);
    CHECK(found > 10 && lost == 0);
    return 0;
}
