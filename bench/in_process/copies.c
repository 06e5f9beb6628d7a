/*
 * Copies, opens and closes sessions. bench/in_process.py counts the instructions of one `copy_and_close`, `open_and_close`,
 * `copy_over` and `copy_user`.
 *
 *     copies PROCESSES [gaps | history | users]
 *
 * The session that is copied has PROCESSES processes of one LWP. With `gaps` as many more ended, each between two of them; with
 * `history` 8,000 ended before them; with `users` the 63 other users have 250 processes each.
 * Linked with --wrap for malloc, realloc and free, the program prints the bytes that its copy was given, and fails if memory is
 * left at the end.
 */
#include <stdio.h>
#include <stdlib.h>
#include <string.h>
#include <tracehost.h>

enum { USER = 1001, LAST_USER = 1064, FIRST_LWP = 100000, ENDED_BEFORE = 8000, FULL = 250 };

static size_t bytes; /* that were asked for */
static long blocks;  /* that weren't freed */

void *__real_malloc(size_t size);
void *__real_realloc(void *old, size_t size);
void __real_free(void *block);
void *__wrap_malloc(size_t size);
void *__wrap_realloc(void *old, size_t size);
void __wrap_free(void *block);

void *__wrap_malloc(size_t size)
{
    bytes += size;
    blocks++;
    return __real_malloc(size);
}

void *__wrap_realloc(void *old, size_t size)
{
    bytes += size;
    blocks += old == NULL;
    return __real_realloc(old, size);
}

void __wrap_free(void *block)
{
    blocks -= block != NULL;
    __real_free(block);
}

static void wanted(int truth, const char *what)
{
    if (!truth) {
        fprintf(stderr, "copies: %s\n", what);
        exit(1);
    }
}

/* their own functions, so that callgrind can count only there */
__attribute__((noinline)) static void copy_and_close(tracehost *h)
{
    tracehost copy = TRACEHOST_CLOSED;
    wanted(tracehost_copy(h, &copy) == TRACEHOST_ANSWERED, "tracehost_copy");
    wanted(tracehost_close(&copy) == TRACEHOST_ANSWERED, "tracehost_close");
}

__attribute__((noinline)) static void open_and_close(void)
{
    tracehost h = TRACEHOST_CLOSED;
    wanted(tracehost_open(true, &h) == TRACEHOST_ANSWERED, "tracehost_open");
    wanted(tracehost_close(&h) == TRACEHOST_ANSWERED, "tracehost_close");
}

__attribute__((noinline)) static void copy_over(tracehost *h, tracehost *to)
{
    wanted(tracehost_copy_over(h, to) == TRACEHOST_ANSWERED, "tracehost_copy_over");
}

__attribute__((noinline)) static void copy_user(tracehost *h, tracehost *to)
{
    wanted(tracehost_copy_user(h, to, USER) == TRACEHOST_ANSWERED, "tracehost_copy_user");
}

static uint32_t spawn(tracehost *h, uint32_t user)
{
    tracehost_reply reply;
    wanted(tracehost_spawn(h, user, &reply) == TRACEHOST_ANSWERED && reply.kind == TRACEHOST_NEW, "spawn");
    return reply.lwp;
}

static void end(tracehost *h, uint32_t lwp)
{
    tracehost_reply reply;
    wanted(tracehost_turn(h, USER, lwp, TRACEHOST_ENTER, TRACEHOST_EXIT, 0, &reply) == TRACEHOST_ANSWERED, "exit");
    wanted(reply.kind == TRACEHOST_OK, "exit");
    wanted(tracehost_turn(h, USER, lwp, TRACEHOST_LEAVE_CALL, 0, 0, &reply) == TRACEHOST_ANSWERED, "end");
    wanted(reply.kind == TRACEHOST_ENDED, "end");
}

int main(int count, char **words)
{
    tracehost h = TRACEHOST_CLOSED, copy = TRACEHOST_CLOSED;
    const char *more = count == 3 ? words[2] : "";
    wanted(count == 2 || count == 3, "PROCESSES [gaps | history | users]");
    wanted(tracehost_open(true, &h) == TRACEHOST_ANSWERED, "tracehost_open");
    long processes = strtol(words[1], NULL, 10), ended = strcmp(more, "gaps") == 0 ? processes : 0;
    for (int i = 0; strcmp(more, "history") == 0 && i < ENDED_BEFORE; i++)
        end(&h, spawn(&h, USER));
    for (uint32_t user = USER + 1; strcmp(more, "users") == 0 && user <= LAST_USER; user++)
        for (int i = 0; i < FULL; i++)
            spawn(&h, user);
    for (long i = 0; i < processes + ended; i++)
        spawn(&h, USER);
    for (uint32_t i = 0; i < ended; i++)
        end(&h, FIRST_LWP + 2 * i);
    bytes = 0;
    wanted(tracehost_copy(&h, &copy) == TRACEHOST_ANSWERED, "tracehost_copy");
    printf("%zu\n", bytes);
    for (int i = 0; i < 16; i++) { /* then malloc has memory of these sizes at hand */
        tracehost other = TRACEHOST_CLOSED;
        wanted(tracehost_copy(&h, &other) == TRACEHOST_ANSWERED, "tracehost_copy");
        tracehost_close(&other);
        wanted(tracehost_open(true, &other) == TRACEHOST_ANSWERED, "tracehost_open");
        tracehost_close(&other);
        wanted(tracehost_copy_over(&h, &copy) == TRACEHOST_ANSWERED, "tracehost_copy_over");
        wanted(tracehost_copy_user(&h, &copy, USER) == TRACEHOST_ANSWERED, "tracehost_copy_user");
    }
    copy_and_close(&h);
    open_and_close();
    copy_over(&h, &copy);
    copy_user(&h, &copy);
    tracehost_close(&copy);
    tracehost_close(&h);
    wanted(blocks == 0, "memory is left");
    return 0;
}
