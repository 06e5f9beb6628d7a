/* What threads wait for each other with. These are the host's locks: a wait is a look that fails, and the question
 * `again KIND NUMBER UNTIL`, which is answered once another thread may have changed that, with 1 if the time is over. */
#define _GNU_SOURCE
#include <semaphore.h>
#include <unistd.h>
#include "freebsd.h"
#include "runtime.h"

/* In a wait for what another thread does: 0 to look again, ETIMEDOUT, or EINTR of a semaphore. */
static int again(const void *where, const char *kind, int number, long long until)
{
	if (tracehost_ask(where, "again %s %d %lld", kind, number, until) != 0)
		return errno;
	return tracehost_number() == 1 ? ETIMEDOUT : 0;
}

/* One look after the other at a lock of the host's, until it isn't busy. */
#define LOOK_UNTIL(where, look, kind, until)             \
	({                                                   \
		int error_, late_ = 0;                           \
		while ((error_ = (look)) == EBUSY && late_ == 0) \
			late_ = again(where, kind, 0, until);        \
		error_ == EBUSY ? late_ : error_;                \
	})

/* ---- mutexes */

static int lock(const void *where, pthread_mutex_t *mutex, long long until)
{
	int error, late = 0;
	while ((error = pthread_mutex_trylock(mutex)) == EBUSY && late == 0) {
		if (mutex->__data.__owner == gettid() && mutex->__data.__kind == PTHREAD_MUTEX_ERRORCHECK_NP)
			return EDEADLK;
		late = again(where, "mutex", mutex->__data.__owner, until);
	}
	return error == EBUSY ? late : error;
}

int tracehost_pthread_mutex_lock(pthread_mutex_t *mutex)
{
	ask("point");
	return lock(HERE, mutex, -1);
}

static int lock_until(const void *where, pthread_mutex_t *mutex, clockid_t clock, const struct timespec *until)
{
	tracehost_ask(where, "point");
	int error = pthread_mutex_trylock(mutex);
	if (error != EBUSY)
		return error;
	return tracehost_no_time(until) ? EINVAL : lock(where, mutex, tracehost_moment(clock, until));
}

int tracehost_pthread_mutex_clocklock(pthread_mutex_t *mutex, clockid_t clock, const struct timespec *until)
{
	return lock_until(HERE, mutex, tracehost_host_clock(clock), until);
}

int tracehost_pthread_mutex_timedlock(pthread_mutex_t *mutex, const struct timespec *until)
{
	return lock_until(HERE, mutex, CLOCK_REALTIME, until);
}

int tracehost_pthread_mutex_trylock(pthread_mutex_t *mutex)
{
	ask("point");
	return pthread_mutex_trylock(mutex);
}

int tracehost_pthread_mutex_unlock(pthread_mutex_t *mutex)
{
	int error = pthread_mutex_unlock(mutex);
	ask("point");
	return error;
}

int tracehost_pthread_mutex_isowned_np(pthread_mutex_t *mutex) { return mutex->__data.__owner == gettid(); }

/* ---- conditions: in the program's own object, so that processes can share it. Those who wait have tickets, in order */

enum { GONE = 6 };
struct condition {
	unsigned next; /* the next ticket */
	unsigned woken; /* all tickets below are woken */
	unsigned inside; /* threads that wait */
	int clock;
	unsigned missing, gone[GONE]; /* tickets of those whose time was over */
};
_Static_assert(sizeof(struct condition) <= sizeof(pthread_cond_t), "a condition has room for ours");

static volatile struct condition *condition_of(pthread_cond_t *given) { return (volatile struct condition *)given; }

/* Whether nobody waits with this ticket any more. */
static int is_gone(volatile struct condition *condition, unsigned ticket)
{
	for (unsigned i = 0; i < condition->missing; i++)
		if (condition->gone[i] == ticket) {
			condition->gone[i] = condition->gone[--condition->missing];
			return 1;
		}
	return 0;
}

static void wake_all(volatile struct condition *condition)
{
	condition->woken = condition->next;
	condition->missing = 0;
}

static void give_up(volatile struct condition *condition, unsigned ticket)
{
	if (condition->missing == GONE)
		wake_all(condition); /* for nothing, which POSIX allows */
	else
		condition->gone[condition->missing++] = ticket;
}

static int wait_condition(const void *where, pthread_cond_t *given, pthread_mutex_t *mutex, long long until)
{
	volatile struct condition *condition = condition_of(given);
	unsigned ticket = condition->next;
	tracehost_cancel_point();
	int late = 0, error = pthread_mutex_unlock(mutex);
	if (error != 0)
		return error;
	condition->next++, condition->inside++;
	while ((int)(condition->woken - ticket) <= 0 && late == 0 && !(own.cancelled && !own.uncancellable))
		late = again(where, "condition", 0, until);
	if ((int)(condition->woken - ticket) > 0)
		late = 0;
	else
		give_up(condition, ticket);
	condition->inside--;
	error = lock(where, mutex, -1);
	tracehost_cancel_point(); /* with the mutex, as cleanup handlers expect */
	return error != 0 ? error : late;
}

int tracehost_pthread_condattr_setclock(pthread_condattr_t *attributes, clockid_t clock)
{
	return pthread_condattr_setclock(attributes, tracehost_host_clock(clock));
}

int tracehost_pthread_condattr_getclock(const pthread_condattr_t *attributes, clockid_t *clock)
{
	const int error = pthread_condattr_getclock(attributes, clock);
	if (error == 0)
		*clock = *clock == CLOCK_MONOTONIC ? BSD_CLOCK_MONOTONIC : BSD_CLOCK_REALTIME;
	return error;
}

int tracehost_pthread_cond_init(pthread_cond_t *given, const pthread_condattr_t *attributes)
{
	clockid_t clock = CLOCK_REALTIME;
	if (attributes != NULL)
		pthread_condattr_getclock(attributes, &clock);
	*condition_of(given) = (struct condition){.clock = clock};
	return 0;
}

/* Those who are woken may not have looked yet. */
int tracehost_pthread_cond_destroy(pthread_cond_t *given)
{
	while (condition_of(given)->inside != 0)
		again(HERE, "condition", 0, -1);
	return 0;
}

int tracehost_pthread_cond_wait(pthread_cond_t *condition, pthread_mutex_t *mutex)
{
	return wait_condition(HERE, condition, mutex, -1);
}

int tracehost_pthread_cond_clockwait(
	pthread_cond_t *condition, pthread_mutex_t *mutex, clockid_t clock, const struct timespec *until)
{
	if (tracehost_no_time(until))
		return EINVAL;
	return wait_condition(HERE, condition, mutex, tracehost_moment(tracehost_host_clock(clock), until));
}

int tracehost_pthread_cond_timedwait(pthread_cond_t *condition, pthread_mutex_t *mutex, const struct timespec *until)
{
	return tracehost_no_time(until)
			   ? EINVAL
			   : wait_condition(HERE, condition, mutex, tracehost_moment(condition_of(condition)->clock, until));
}

int tracehost_pthread_cond_signal(pthread_cond_t *given)
{
	volatile struct condition *condition = condition_of(given);
	while (condition->woken != condition->next && is_gone(condition, condition->woken++))
		;
	ask("point");
	return 0;
}

int tracehost_pthread_cond_broadcast(pthread_cond_t *given)
{
	wake_all(condition_of(given));
	ask("point");
	return 0;
}

/* ---- barriers */

struct barrier {
	unsigned count, waiting, round, inside;
};
_Static_assert(sizeof(struct barrier) <= sizeof(pthread_barrier_t), "a barrier has room for ours");

int tracehost_pthread_barrier_init(pthread_barrier_t *barrier, const pthread_barrierattr_t *attributes, unsigned count)
{
	(void)attributes;
	if (count == 0)
		return EINVAL;
	*(volatile struct barrier *)barrier = (struct barrier){.count = count};
	return 0;
}

/* Those who may go on may not have looked yet. */
int tracehost_pthread_barrier_destroy(pthread_barrier_t *barrier)
{
	while (((volatile struct barrier *)barrier)->inside != 0)
		again(HERE, "barrier", 0, -1);
	return 0;
}

int tracehost_pthread_barrier_wait(pthread_barrier_t *given)
{
	volatile struct barrier *barrier = (volatile struct barrier *)given;
	ask("point");
	unsigned round = barrier->round;
	if (++barrier->waiting == barrier->count) {
		barrier->waiting = 0, barrier->round++;
		return PTHREAD_BARRIER_SERIAL_THREAD;
	}
	barrier->inside++;
	while (barrier->round == round)
		again(HERE, "barrier", 0, -1);
	barrier->inside--;
	return 0;
}

/* ---- semaphores */

static int try_semaphore(sem_t *semaphore) { return sem_trywait(semaphore) == 0 ? 0 : errno == EAGAIN ? EBUSY : errno; }

static int take(const void *where, sem_t *semaphore, long long until)
{
	int error = LOOK_UNTIL(where, try_semaphore(semaphore), "semaphore", until);
	return error == 0 ? 0 : (errno = error, -1);
}

int tracehost_sem_wait(sem_t *semaphore)
{
	ask("point");
	return take(HERE, semaphore, -1);
}

int tracehost_sem_trywait(sem_t *semaphore)
{
	ask("point");
	return sem_trywait(semaphore);
}

static int take_until(const void *where, sem_t *semaphore, clockid_t clock, const struct timespec *until)
{
	tracehost_ask(where, "point");
	if (sem_trywait(semaphore) == 0)
		return 0;
	if (tracehost_no_time(until)) {
		errno = EINVAL;
		return -1;
	}
	return take(where, semaphore, tracehost_moment(clock, until));
}

int tracehost_sem_clockwait(sem_t *semaphore, clockid_t clock, const struct timespec *until)
{
	return take_until(HERE, semaphore, tracehost_host_clock(clock), until);
}

int tracehost_sem_timedwait(sem_t *semaphore, const struct timespec *until)
{
	return take_until(HERE, semaphore, CLOCK_REALTIME, until);
}

/* FreeBSD's: a time from now on, unless it is TIMER_ABSTIME. What is left isn't known. */
int tracehost_sem_clockwait_np(sem_t *semaphore, clockid_t clock, int flags, const struct timespec *time, struct timespec *left)
{
	struct timespec until = *time;
	if (!(flags & TIMER_ABSTIME)) {
		tracehost_clock_gettime(clock, &until);
		until.tv_sec += time->tv_sec, until.tv_nsec += time->tv_nsec;
		if (until.tv_nsec >= 1000000000)
			until.tv_sec++, until.tv_nsec -= 1000000000;
	}
	if (left != NULL)
		*left = (struct timespec){0, 0};
	return take_until(HERE, semaphore, tracehost_host_clock(clock), tracehost_no_time(time) ? time : &until);
}

int tracehost_sem_post(sem_t *semaphore)
{
	int result = sem_post(semaphore);
	ask("point");
	return result;
}

/* ---- read-write locks and spin locks */

typedef int attempt(pthread_rwlock_t *);

static int timed(const void *where, pthread_rwlock_t *rwlock, attempt *attempt, const struct timespec *until)
{
	tracehost_ask(where, "point");
	int error = attempt(rwlock);
	if (error != EBUSY)
		return error;
	return tracehost_no_time(until) ? EINVAL
									: LOOK_UNTIL(where, attempt(rwlock), "rwlock", tracehost_moment(CLOCK_REALTIME, until));
}

int tracehost_pthread_rwlock_rdlock(pthread_rwlock_t *rwlock)
{
	ask("point");
	if (rwlock->__data.__cur_writer == gettid())
		return EDEADLK;
	return LOOK_UNTIL(HERE, pthread_rwlock_tryrdlock(rwlock), "rwlock", -1LL);
}

int tracehost_pthread_rwlock_wrlock(pthread_rwlock_t *rwlock)
{
	ask("point");
	if (rwlock->__data.__cur_writer == gettid())
		return EDEADLK;
	return LOOK_UNTIL(HERE, pthread_rwlock_trywrlock(rwlock), "rwlock", -1LL);
}

int tracehost_pthread_rwlock_tryrdlock(pthread_rwlock_t *rwlock) { return ask("point"), pthread_rwlock_tryrdlock(rwlock); }
int tracehost_pthread_rwlock_trywrlock(pthread_rwlock_t *rwlock) { return ask("point"), pthread_rwlock_trywrlock(rwlock); }

int tracehost_pthread_rwlock_timedrdlock(pthread_rwlock_t *rwlock, const struct timespec *until)
{
	return timed(HERE, rwlock, pthread_rwlock_tryrdlock, until);
}

int tracehost_pthread_rwlock_timedwrlock(pthread_rwlock_t *rwlock, const struct timespec *until)
{
	return timed(HERE, rwlock, pthread_rwlock_trywrlock, until);
}

int tracehost_pthread_rwlock_unlock(pthread_rwlock_t *rwlock)
{
	int error = pthread_rwlock_unlock(rwlock);
	ask("point");
	return error;
}

int tracehost_pthread_spin_lock(pthread_spinlock_t *spin)
{
	ask("point");
	return LOOK_UNTIL(HERE, pthread_spin_trylock(spin), "spin", -1LL);
}

int tracehost_pthread_spin_trylock(pthread_spinlock_t *spin) { return ask("point"), pthread_spin_trylock(spin); }

int tracehost_pthread_spin_unlock(pthread_spinlock_t *spin)
{
	int error = pthread_spin_unlock(spin);
	ask("point");
	return error;
}
