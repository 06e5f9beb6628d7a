/* Several threads in one session, and waits that block: tracehost_client.h describes each call. */
#define _POSIX_C_SOURCE 200809L

#include "internal.h"

#include <time.h>

int thp_init_threads(th_host *h)
{
    pthread_condattr_t clock;
    int error = pthread_mutex_init(&h->lock, NULL);
    if (error != 0)
        return error;
    error = pthread_condattr_init(&clock);
    if (error == 0) {
        pthread_condattr_setclock(&clock, CLOCK_MONOTONIC);
        error = pthread_cond_init(&h->changed, &clock);
        pthread_condattr_destroy(&clock);
    }
    if (error != 0)
        pthread_mutex_destroy(&h->lock);
    return error;
}

void thp_end_threads(th_host *h)
{
    pthread_cond_destroy(&h->changed);
    pthread_mutex_destroy(&h->lock);
}

/* the wait that is asked next; NULL if none is due */
static struct thp_wait *first_due(const th_host *h)
{
    struct thp_wait *wait = h->waits;
    while (wait != NULL && !wait->due)
        wait = wait->next;
    return wait;
}

void thp_enter(th_host *h)
{
    pthread_mutex_lock(&h->lock);
    while (first_due(h) != NULL)
        pthread_cond_wait(&h->changed, &h->lock);
}

void thp_leave(th_host *h)
{
    int error = errno;
    pthread_mutex_unlock(&h->lock);
    errno = error;
}

void thp_wake(th_host *h)
{
    for (struct thp_wait *wait = h->waits; wait != NULL; wait = wait->next)
        wait->due = 1;
    pthread_cond_broadcast(&h->changed);
}

/* the time in `timeout` milliseconds */
static struct timespec deadline_in(int timeout)
{
    struct timespec at;
    clock_gettime(CLOCK_MONOTONIC, &at);
    at.tv_sec += timeout / 1000;
    at.tv_nsec += (long)(timeout % 1000) * 1000000;
    if (at.tv_nsec >= 1000000000) {
        at.tv_sec++;
        at.tv_nsec -= 1000000000;
    }
    return at;
}

/* Sleeps until something has changed; ETIMEDOUT if there is a `deadline` and it has passed. */
static int sleep_until(th_host *h, const struct timespec *deadline)
{
    if (deadline == NULL)
        return pthread_cond_wait(&h->changed, &h->lock);
    return pthread_cond_timedwait(&h->changed, &h->lock, deadline);
}

static int sleep_until_due(th_host *h, struct thp_wait *wait, const struct timespec *deadline)
{
    pthread_cond_broadcast(&h->changed);
    while (first_due(h) != wait)
        if (sleep_until(h, deadline) == ETIMEDOUT && first_due(h) != wait) {
            errno = ETIMEDOUT;
            return -1;
        }
    wait->due = 0;
    return 0;
}

static void remove_wait(th_host *h, struct thp_wait *wait)
{
    struct thp_wait **at = &h->waits;
    while (*at != wait)
        at = &(*at)->next;
    *at = wait->next;
    pthread_cond_broadcast(&h->changed);
}

/* A wait whose first answer was that there is nothing to collect. */
static int ask_again(th_host *h, const struct thp_step *step, struct thp_reply *reply, const struct timespec *deadline)
{
    struct thp_wait wait = {NULL, 0}, **last = &h->waits;
    int result = 0;
    while (*last != NULL)
        last = &(*last)->next;
    *last = &wait;
    while (result == 0 && reply->kind == THP_NOTHING)
        result = sleep_until_due(h, &wait, deadline) == 0 ? thp_ask(h, step, reply) : -1;
    int error = errno;
    remove_wait(h, &wait);
    errno = error;
    return result;
}

int thp_call(th_host *h, const struct thp_step *step, struct thp_reply *reply, const int *timeout)
{
    int is_timed = timeout != NULL && *timeout >= 0;
    struct timespec deadline = {0, 0};
    if (is_timed)
        deadline = deadline_in(*timeout);
    thp_enter(h);
    int result = thp_ask(h, step, reply);
    if (result == 0 && timeout != NULL && reply->kind == THP_NOTHING)
        result = ask_again(h, step, reply, is_timed ? &deadline : NULL);
    thp_leave(h);
    return result;
}

/* whether `count` waits are blocked, and none of them is to be asked again; if the session is broken, no wait blocks */
static int are_blocked(const th_host *h, size_t count)
{
    size_t blocked = 0;
    for (const struct thp_wait *wait = h->waits; wait != NULL; wait = wait->next)
        blocked++;
    return h->broken || (blocked >= count && first_due(h) == NULL);
}

int th_until_blocked(th_host *h, size_t count, int timeout)
{
    struct timespec deadline = deadline_in(timeout < 0 ? 0 : timeout);
    int error = 0;
    pthread_mutex_lock(&h->lock);
    while (error == 0 && !are_blocked(h, count))
        if (sleep_until(h, timeout < 0 ? NULL : &deadline) == ETIMEDOUT && !are_blocked(h, count))
            error = ETIMEDOUT;
    if (error == 0 && h->broken)
        error = EPIPE;
    pthread_mutex_unlock(&h->lock);
    if (error == 0)
        return 0;
    errno = error;
    return -1;
}
