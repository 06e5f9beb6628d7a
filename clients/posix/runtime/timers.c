/* Timers: alarm(3), setitimer(2) and timer_create(2). They are the broker's, each with a number; 0 is ITIMER_REAL. */
#define _GNU_SOURCE
#include <sys/time.h>
#include "freebsd.h"
#include "runtime.h"

static long long ns_of(const struct timespec *time) { return time->tv_sec * 1000000000LL + time->tv_nsec; }
static struct timespec time_of(long long ns) { return (struct timespec){ns / 1000000000, ns % 1000000000}; }
static long long ns_of_us(const struct timeval *time) { return time->tv_sec * 1000000000LL + time->tv_usec * 1000LL; }
static struct timeval us_of(long long ns) { return (struct timeval){ns / 1000000000, ns % 1000000000 / 1000}; }

unsigned tracehost_alarm(unsigned seconds)
{
	ask("timer 0 %d %lld 0", BSD_SIGALRM, seconds * 1000000000LL);
	return (tracehost_number() + 999999999) / 1000000000;
}

static int itimer(const void *where, int which, const struct itimerval *new, struct itimerval *old)
{
	if (which != ITIMER_REAL) {
		tracehost_say("setitimer, getitimer: the model has ITIMER_REAL only (EINVAL)");
		errno = EINVAL;
		return -1;
	}
	if (new == NULL)
		tracehost_ask(where, "timer_left 0");
	else
		tracehost_ask(where, "timer 0 %d %lld %lld", BSD_SIGALRM, ns_of_us(&new->it_value), ns_of_us(&new->it_interval));
	long long left = tracehost_number(), every = tracehost_number();
	if (old != NULL)
		*old = (struct itimerval){us_of(every), us_of(left)};
	return 0;
}

int tracehost_setitimer(int which, const struct itimerval *new, struct itimerval *old) { return itimer(HERE, which, new, old); }
int tracehost_getitimer(int which, struct itimerval *now) { return itimer(HERE, which, NULL, now); }

useconds_t tracehost_ualarm(useconds_t first, useconds_t every)
{
	struct itimerval new = {us_of(every * 1000LL), us_of(first * 1000LL)}, old;
	return itimer(HERE, ITIMER_REAL, &new, &old) != 0 ? (useconds_t)-1 : (useconds_t)(ns_of_us(&old.it_value) / 1000);
}

/* ---- timer_create(2) */

enum { TIMERS = 32 };
static struct {
	int used, signal;
	clockid_t clock;
} timers[TIMERS + 1]; /* from 1 on */

/* A timer's number; 0 with EINVAL if there is none. */
static int number_of(timer_t timer)
{
	long number = (long)timer;
	if (number >= 1 && number <= TIMERS && timers[number].used)
		return (int)number;
	errno = EINVAL;
	return 0;
}

int tracehost_timer_create(clockid_t clock_number, struct sigevent *event, timer_t *made)
{
	const clockid_t clock = tracehost_host_clock(clock_number);
	int number = 1, signal = event == NULL ? BSD_SIGALRM : event->sigev_notify == SIGEV_NONE ? 0 : event->sigev_signo;
	ask("call %d", SYSCALL_TIMER_CREATE);
	while (number <= TIMERS && timers[number].used)
		number++;
	if (event != NULL && event->sigev_notify != SIGEV_NONE && event->sigev_notify != SIGEV_SIGNAL) {
		tracehost_say("timer_create: the runtime has SIGEV_SIGNAL and SIGEV_NONE only (EINVAL)");
		number = -1;
	} else if ((clock != CLOCK_REALTIME && clock != CLOCK_MONOTONIC) || signal < 0 || signal > BSD_SIGNALS)
		number = -1;
	if (number < 0 || number > TIMERS) {
		errno = number < 0 ? EINVAL : EAGAIN;
		return -1;
	}
	timers[number].used = 1, timers[number].signal = signal, timers[number].clock = clock;
	*made = (timer_t)(long)number;
	return 0;
}

int tracehost_timer_settime(timer_t timer, int flags, const struct itimerspec *new, struct itimerspec *old)
{
	int number = number_of(timer);
	if (number == 0 || tracehost_no_time(&new->it_value) || tracehost_no_time(&new->it_interval) || new->it_value.tv_sec < 0 ||
		new->it_interval.tv_sec < 0) {
		errno = EINVAL;
		return -1;
	}
	long long first = ns_of(&new->it_value);
	if (flags & TIMER_ABSTIME && first != 0) {
		ask("clock");
		first = tracehost_moment(timers[number].clock, &new->it_value) - tracehost_number();
		first = first > 0 ? first : 1;
	}
	ask("timer %d %d %lld %lld", number, timers[number].signal, first, ns_of(&new->it_interval));
	long long left = tracehost_number(), every = tracehost_number();
	if (old != NULL)
		*old = (struct itimerspec){time_of(every), time_of(left)};
	return 0;
}

int tracehost_timer_gettime(timer_t timer, struct itimerspec *now)
{
	int number = number_of(timer);
	if (number == 0)
		return -1;
	ask("timer_left %d", number);
	long long left = tracehost_number(), every = tracehost_number();
	*now = (struct itimerspec){time_of(every), time_of(left)};
	return 0;
}

int tracehost_timer_delete(timer_t timer)
{
	int number = number_of(timer);
	if (number == 0)
		return -1;
	ask("timer %d 0 0 0", number);
	timers[number].used = 0;
	return 0;
}

int tracehost_timer_getoverrun(timer_t timer)
{
	int number = number_of(timer);
	return number == 0 || ask("overrun %d", number) != 0 ? -1 : (int)tracehost_number();
}

/* A fork's child has no timers. */
void tracehost_no_timers(void)
{
	for (int number = 1; number <= TIMERS; number++)
		timers[number].used = 0;
}
