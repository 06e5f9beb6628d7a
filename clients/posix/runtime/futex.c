/* futex(2) as the libraries of C++ and Rust use it. A thread waits until it is woken, or its word has changed, as another
 * process may do. */
#define _GNU_SOURCE
#include <linux/futex.h>
#include "runtime.h"

static struct sleeper {
	const int *at; /* NULL: none */
	unsigned turn; /* who came first is woken first */
	int tid, woken;
} sleepers[THREADS];
static int used;
static unsigned turns;
static pid_t process; /* whose threads these are */

/* The caller's; one that a handler has left by longjmp(3) is taken again. */
static struct sleeper *fall_asleep(const int *at)
{
	int i = 0;
	if (process != own_real)
		process = own_real, used = 0;
	while (i < used && sleepers[i].at != NULL && sleepers[i].tid != own.tid)
		i++;
	used = i < used ? used : i + 1;
	sleepers[i] = (struct sleeper){at, ++turns, own.tid, 0};
	return &sleepers[i];
}

static int wake(const int *at, int most)
{
	int count = 0;
	for (struct sleeper *first = process == own_real ? sleepers : NULL; first != NULL && count < most; count++) {
		first = NULL;
		for (struct sleeper *one = sleepers; one < sleepers + used; one++)
			if (one->at == at && !one->woken && (first == NULL || (int)(one->turn - first->turn) < 0))
				first = one;
		if (first == NULL)
			break;
		first->woken = 1;
	}
	return count;
}

long tracehost_futex(const void *where, const int *at, int operation, int value, const struct timespec *until)
{
	const volatile int *word = at;
	const int kind = operation & FUTEX_CMD_MASK;
	if (kind == FUTEX_WAKE) {
		const int count = wake(at, value);
		tracehost_ask(where, "point");
		return count;
	}
	tracehost_ask(where, "point");
	if ((kind != FUTEX_WAIT && kind != FUTEX_WAIT_BITSET) || (until != NULL && kind == FUTEX_WAIT)) {
		errno = ENOSYS;
		return -1;
	}
	if (*word != value) {
		errno = EAGAIN;
		return -1;
	}
	const clockid_t clock = operation & FUTEX_CLOCK_REALTIME ? CLOCK_REALTIME : CLOCK_MONOTONIC;
	const long long moment = until == NULL ? -1 : tracehost_moment(clock, until);
	struct sleeper *own_sleep = fall_asleep(at);
	int late = 0;
	while (!own_sleep->woken && *word == value && !late) {
		tracehost_ask(where, "again futex 0 %lld", moment);
		late = tracehost_number() == 1;
	}
	const int woken = own_sleep->woken;
	own_sleep->at = NULL;
	if (!late || woken)
		return 0;
	errno = ETIMEDOUT;
	return -1;
}
