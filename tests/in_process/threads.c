/*
 * Sessions in threads: each gives the answers that it gives in one thread. A session is opened in one thread, used in
 * another, and closed in the first.
 *
 *     threads [CALLS]
 */
#include "sequences.h"
#include <pthread.h>

enum { THREADS = 8 };

/* The calls of a thread, and the replies to them: first of the session by itself, then of the one in the thread. */
struct worker {
    tracehost h;
    struct call *calls;
    tracehost_reply *wanted, *replies;
    size_t count;
    pthread_t thread;
};

static void make_all(tracehost *h, const struct worker *of, tracehost_reply *replies)
{
    for (size_t i = 0; i < of->count; i++)
        CHECK(make(h, &of->calls[i], &replies[i]) == TRACEHOST_ANSWERED);
}

static void *run(void *argument)
{
    struct worker *self = argument;
    tracehost copy = TRACEHOST_CLOSED;
    for (size_t i = 0; i < self->count; i++)
        if (make(&self->h, &self->calls[i], &self->replies[i]) != TRACEHOST_ANSWERED)
            return NULL;
    bool copied = tracehost_copy(&self->h, &copy) == 0 && tracehost_close(&self->h) == 0;
    self->h = copy;
    return copied ? self : NULL;
}

static void *room_for(size_t count, size_t size)
{
    void *made = calloc(count, size);
    CHECK(made != NULL);
    return made;
}

static void prepare(struct worker *worker, size_t count, bool kills)
{
    tracehost alone = TRACEHOST_CLOSED;
    *worker = (struct worker){.h = TRACEHOST_CLOSED, .count = count};
    worker->calls = room_for(count, sizeof *worker->calls);
    worker->wanted = room_for(count, sizeof *worker->wanted);
    worker->replies = room_for(count, sizeof *worker->replies);
    for (size_t i = 0; i < count; i++)
        worker->calls[i] =
            i < FIRST_SPAWNS ? (struct call){.op = SPAWN, .user = FIRST_USER + (uint32_t)i % 2} : choose();
    CHECK(tracehost_open(kills, &alone) == 0);
    make_all(&alone, worker, worker->wanted);
    CHECK(tracehost_close(&alone) == 0);
    CHECK(tracehost_open(kills, &worker->h) == 0);
}

int main(int argc, char **argv)
{
    static struct worker workers[THREADS];
    size_t count = argc > 1 ? strtoul(argv[1], NULL, 10) : 1000;
    for (int i = 0; i < THREADS; i++)
        prepare(&workers[i], count, i % 2);
    for (int i = 0; i < THREADS; i++)
        CHECK(pthread_create(&workers[i].thread, NULL, run, &workers[i]) == 0);
    for (int i = 0; i < THREADS; i++) {
        void *ended;
        CHECK(pthread_join(workers[i].thread, &ended) == 0 && ended == &workers[i]);
        CHECK(memcmp(workers[i].wanted, workers[i].replies, count * sizeof *workers[i].wanted) == 0);
        CHECK(tracehost_close(&workers[i].h) == TRACEHOST_ANSWERED);
        free(workers[i].calls);
        free(workers[i].wanted);
        free(workers[i].replies);
    }
    printf("%d threads, %zu calls in each\n", THREADS, count);
    return 0;
}
