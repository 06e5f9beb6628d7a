/* pthread_join(3) and its kin with a time, pthread_detach(3), semaphores and barriers: what they return, by their pages.
 * Under a seed a wait with a time may end early.
 *
 * prints: joins|detached|semaphores|barrier
 * schedules: 0
 */
#define _GNU_SOURCE
#include <errno.h>
#include <pthread.h>
#include <semaphore.h>
#include <stdio.h>
#include <stdlib.h>
#include <time.h>

#define CHECK(holds) ((holds) ? (void)0 : (printf("line %d: %s, errno %d\n", __LINE__, #holds, errno), exit(1)))
#define FAILS(call, number) CHECK((errno = 0, (call) == -1 && errno == (number)))

static sem_t go, other;
static const struct timespec no_time = {0, 1000000000}, past = {1, 0};

static void *waits(void *value)
{
	while (sem_wait(&go) != 0)
		;
	return value;
}

static struct timespec in_a_minute(clockid_t clock)
{
	struct timespec time;
	clock_gettime(clock, &time);
	time.tv_sec += 60;
	return time;
}

static pthread_t started(void *value)
{
	pthread_t thread;
	CHECK(pthread_create(&thread, NULL, waits, value) == 0);
	return thread;
}

static void joins(void)
{
	struct timespec until;
	void *value = NULL;
	int one, two, error;
	pthread_t thread = started(&one);
	CHECK(pthread_join(pthread_self(), NULL) == EDEADLK);
	CHECK(pthread_tryjoin_np(thread, &value) == EBUSY && value == NULL);
	CHECK(pthread_timedjoin_np(thread, &value, &past) == ETIMEDOUT);
	CHECK(pthread_clockjoin_np(thread, &value, CLOCK_MONOTONIC, &past) == ETIMEDOUT);
	CHECK(sem_post(&go) == 0);
	until = in_a_minute(CLOCK_MONOTONIC);
	CHECK(pthread_clockjoin_np(thread, &value, CLOCK_MONOTONIC, &until) == 0 && value == &one);
	thread = started(&two);
	CHECK(sem_post(&go) == 0);
	until = in_a_minute(CLOCK_REALTIME);
	CHECK(pthread_timedjoin_np(thread, &value, &until) == 0 && value == &two);
	thread = started(&one);
	CHECK(sem_post(&go) == 0);
	while ((error = pthread_tryjoin_np(thread, &value)) == EBUSY)
		nanosleep(&(struct timespec){0, 1000000}, NULL);
	CHECK(error == 0 && value == &one);
	puts("joins");
}

static void *says(void *value)
{
	CHECK(sem_post(&other) == 0);
	return waits(value);
}

static void detached(void)
{
	pthread_attr_t attributes;
	pthread_t thread;
	CHECK(pthread_attr_init(&attributes) == 0);
	CHECK(pthread_attr_setdetachstate(&attributes, PTHREAD_CREATE_DETACHED) == 0);
	CHECK(pthread_create(&thread, &attributes, says, NULL) == 0 && sem_wait(&other) == 0);
	CHECK(pthread_join(thread, NULL) == EINVAL && pthread_detach(thread) == EINVAL);
	CHECK(pthread_create(&thread, NULL, says, NULL) == 0 && sem_wait(&other) == 0);
	CHECK(pthread_detach(thread) == 0 && pthread_detach(thread) == EINVAL);
	CHECK(sem_post(&go) == 0 && sem_post(&go) == 0); /* not before: a thread that has ended has no number */
	puts("detached");
}

static void semaphores(void)
{
	struct timespec until;
	int value;
	sem_t own;
	CHECK(sem_init(&own, 0, 1) == 0 && sem_trywait(&own) == 0 && sem_getvalue(&own, &value) == 0 && value == 0);
	FAILS(sem_trywait(&own), EAGAIN);
	FAILS(sem_timedwait(&own, &past), ETIMEDOUT);
	FAILS(sem_timedwait(&own, &no_time), EINVAL);
	FAILS(sem_clockwait(&own, CLOCK_MONOTONIC, &past), ETIMEDOUT);
	CHECK(sem_post(&own) == 0 && sem_timedwait(&own, &past) == 0); /* it is there, so the time doesn't matter */
	until = in_a_minute(CLOCK_MONOTONIC);
	CHECK(sem_post(&own) == 0 && sem_clockwait(&own, CLOCK_MONOTONIC, &until) == 0 && sem_destroy(&own) == 0);
	puts("semaphores");
}

static pthread_barrier_t barrier;

static void *meets(void *value)
{
	int met = pthread_barrier_wait(&barrier);
	CHECK(met == 0 || met == PTHREAD_BARRIER_SERIAL_THREAD);
	return met == 0 ? NULL : value;
}

static void barriers(void)
{
	pthread_t threads[3];
	int serial = 0;
	void *value;
	CHECK(pthread_barrier_init(&barrier, NULL, 0) == EINVAL && pthread_barrier_init(&barrier, NULL, 3) == 0);
	for (int i = 0; i < 3; i++)
		CHECK(pthread_create(&threads[i], NULL, meets, &serial) == 0);
	for (int i = 0, last = 0; i < 3; i++, last += value != NULL)
		CHECK(pthread_join(threads[i], &value) == 0 && last + (value != NULL) <= 1);
	CHECK(pthread_barrier_destroy(&barrier) == 0);
	puts("barrier");
}

int main(void)
{
	CHECK(sem_init(&go, 0, 0) == 0 && sem_init(&other, 0, 0) == 0);
	joins();
	detached();
	semaphores();
	barriers();
	return 0;
}
