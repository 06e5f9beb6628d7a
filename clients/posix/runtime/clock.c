/* Time is the broker's: a sleep lasts until nobody else goes on, or as the schedule has it. */
#define _GNU_SOURCE
#include <sys/time.h>
#include <unistd.h>
#include "freebsd.h"
#include "runtime.h"

enum { EPOCH = 1767225600 }; /* where the clock of the day begins: 2026-01-01 */
enum { NO_CLOCK = 0x7fffffff }; /* of none, in the host too */

static long long ns_of(const struct timespec *time)
{
	const long long most = 9000000000; /* of seconds: more are as many */
	return (time->tv_sec < most ? time->tv_sec : most) * 1000000000LL + time->tv_nsec;
}

int tracehost_no_time(const struct timespec *time) { return time->tv_nsec < 0 || time->tv_nsec >= 1000000000; }

static struct timespec time_of(long long ns) { return (struct timespec){ns / 1000000000, ns % 1000000000}; }

static int sleep_for(const void *where, long long ns, struct timespec *left)
{
	if (tracehost_ask(where, "sleep %lld", ns) == 0)
		return 0;
	if (left != NULL)
		*left = time_of(tracehost_number());
	return -1;
}

int tracehost_nanosleep(const struct timespec *time, struct timespec *left)
{
	if (tracehost_no_time(time) || time->tv_sec < 0) {
		errno = EINVAL;
		return -1;
	}
	return sleep_for(HERE, ns_of(time), left);
}

static long long now(const void *where)
{
	tracehost_ask(where, "clock");
	return tracehost_number();
}

clockid_t tracehost_host_clock(clockid_t number)
{
	static const struct {
		clockid_t number, host;
	} clocks[] = {{BSD_CLOCK_REALTIME, CLOCK_REALTIME}, {BSD_CLOCK_PROF, CLOCK_PROCESS_CPUTIME_ID},
		{BSD_CLOCK_MONOTONIC, CLOCK_MONOTONIC}, {BSD_CLOCK_UPTIME, CLOCK_BOOTTIME}, {BSD_CLOCK_UPTIME_PRECISE, CLOCK_BOOTTIME},
		{BSD_CLOCK_UPTIME_FAST, CLOCK_BOOTTIME}, {BSD_CLOCK_REALTIME_PRECISE, CLOCK_REALTIME},
		{BSD_CLOCK_REALTIME_FAST, CLOCK_REALTIME_COARSE}, {BSD_CLOCK_MONOTONIC_PRECISE, CLOCK_MONOTONIC},
		{BSD_CLOCK_MONOTONIC_FAST, CLOCK_MONOTONIC_COARSE}, {BSD_CLOCK_THREAD_CPUTIME_ID, CLOCK_THREAD_CPUTIME_ID},
		{BSD_CLOCK_PROCESS_CPUTIME_ID, CLOCK_PROCESS_CPUTIME_ID}};
	for (size_t i = 0; i < sizeof clocks / sizeof clocks[0]; i++)
		if (clocks[i].number == number)
			return clocks[i].host;
	return number < 0 ? number : NO_CLOCK;
}

/* Whether the clock is the broker's: CLOCK_REALTIME, CLOCK_MONOTONIC and their kin. The processor's clocks are the host's. */
static int is_virtual(clockid_t clock)
{
	return clock >= 0 && clock <= CLOCK_BOOTTIME && clock != CLOCK_PROCESS_CPUTIME_ID && clock != CLOCK_THREAD_CPUTIME_ID;
}

/* What the clock shows when the broker's shows 0. */
static long long beginning(clockid_t clock)
{
	return clock == CLOCK_REALTIME || clock == CLOCK_REALTIME_COARSE ? EPOCH * 1000000000LL : 0;
}

long long tracehost_moment(clockid_t clock, const struct timespec *time)
{
	long long ns = ns_of(time) - beginning(clock);
	return ns > 0 ? ns : 0;
}

int tracehost_clock_nanosleep(clockid_t number, int flags, const struct timespec *time, struct timespec *left)
{
	const clockid_t clock = tracehost_host_clock(number);
	if (!is_virtual(clock) || tracehost_no_time(time) || time->tv_sec < 0)
		return EINVAL;
	long long ns = flags & TIMER_ABSTIME ? tracehost_moment(clock, time) - now(HERE) : ns_of(time);
	return sleep_for(HERE, ns > 0 ? ns : 0, left) == 0 ? 0 : errno;
}

int tracehost_usleep(useconds_t time) { return sleep_for(HERE, time * 1000LL, NULL); }

unsigned tracehost_sleep(unsigned seconds)
{
	struct timespec left;
	return sleep_for(HERE, seconds * 1000000000LL, &left) == 0 ? 0 : (unsigned)left.tv_sec + (left.tv_nsec > 0);
}

int tracehost_clock_gettime(clockid_t number, struct timespec *to)
{
	const clockid_t clock = tracehost_host_clock(number);
	if (!is_virtual(clock))
		return clock_gettime(clock, to);
	*to = time_of(now(HERE) + beginning(clock));
	return 0;
}

/* Each look takes a microsecond. */
int tracehost_clock_getres(clockid_t number, struct timespec *to)
{
	const clockid_t clock = tracehost_host_clock(number);
	if (!is_virtual(clock))
		return clock_getres(clock, to);
	if (to != NULL)
		*to = time_of(1000);
	return 0;
}

/* Only of the caller: others have other numbers in the host. */
int tracehost_clock_getcpuclockid(pid_t pid, clockid_t *clock)
{
	return pid == 0 || pid == own_pid ? clock_getcpuclockid(0, clock) : EPERM;
}

int tracehost_gettimeofday(struct timeval *to, void *zone)
{
	struct timespec time = time_of(now(HERE) + beginning(CLOCK_REALTIME));
	(void)zone;
	*to = (struct timeval){time.tv_sec, time.tv_nsec / 1000};
	return 0;
}

int tracehost_timespec_get(struct timespec *to, int base)
{
	if (base != TIME_UTC)
		return 0;
	*to = time_of(now(HERE) + beginning(CLOCK_REALTIME));
	return base;
}

time_t tracehost_time(time_t *to)
{
	time_t seconds = (now(HERE) + beginning(CLOCK_REALTIME)) / 1000000000;
	if (to != NULL)
		*to = seconds;
	return seconds;
}
