/* gettimeofday(2), time(3), timespec_get(3), clock_getres(2) and sleeps until a moment: one clock, which goes on.
 *
 * prints: one clock|resolutions|moments
 * schedules: 5
 */
#include <errno.h>
#include <stdio.h>
#include <stdlib.h>
#include <sys/time.h>
#include <time.h>
#include <unistd.h>

#define CHECK(holds) ((holds) ? (void)0 : (printf("line %d: %s, errno %d\n", __LINE__, #holds, errno), exit(1)))
#define FAILS(call, number) CHECK((errno = 0, (call) == -1 && errno == (number)))

static long long ns(const struct timespec *time) { return time->tv_sec * 1000000000LL + time->tv_nsec; }

static void one_clock(void)
{
	struct timespec first, second, third;
	struct timeval day;
	time_t kept, now;
	CHECK(clock_gettime(CLOCK_REALTIME, &first) == 0);
	while (first.tv_nsec < 50000000) { /* Linux's time(3) is up to 10 ms behind */
		usleep(50000);
		CHECK(clock_gettime(CLOCK_REALTIME, &first) == 0);
	}
	CHECK(gettimeofday(&day, NULL) == 0);
	CHECK(timespec_get(&second, TIME_UTC) == TIME_UTC && timespec_get(&third, 77) == 0);
	now = time(&kept);
	CHECK(now == kept && time(NULL) >= now && now >= first.tv_sec);
	CHECK(day.tv_usec < 1000000 && day.tv_sec * 1000000LL + day.tv_usec >= ns(&first) / 1000);
	CHECK(ns(&second) >= ns(&first) && now <= second.tv_sec + 60);
	puts("one clock");
}

static void resolutions(void)
{
	struct timespec step;
	clockid_t clock;
	CHECK(clock_getres(CLOCK_MONOTONIC, &step) == 0 && ns(&step) >= 1 && ns(&step) <= 1000000000);
	CHECK(clock_getres(CLOCK_REALTIME, NULL) == 0 && clock_getres(CLOCK_PROCESS_CPUTIME_ID, &step) == 0);
	FAILS(clock_getres(999, &step), EINVAL);
	CHECK(clock_getcpuclockid(0, &clock) == 0 && clock_gettime(clock, &step) == 0);
	CHECK(clock_getcpuclockid(getpid(), &clock) == 0);
	puts("resolutions");
}

static void moments(void)
{
	struct timespec until, after, none = {0, 1000000000}, past = {-1, 0};
	CHECK(clock_gettime(CLOCK_MONOTONIC, &until) == 0);
	until.tv_sec += until.tv_nsec >= 999000000, until.tv_nsec = (until.tv_nsec + 1000000) % 1000000000;
	CHECK(clock_nanosleep(CLOCK_MONOTONIC, TIMER_ABSTIME, &until, NULL) == 0);
	CHECK(clock_gettime(CLOCK_MONOTONIC, &after) == 0 && ns(&after) >= ns(&until));
	CHECK(clock_nanosleep(CLOCK_MONOTONIC, TIMER_ABSTIME, &until, NULL) == 0);
	CHECK(clock_nanosleep(CLOCK_MONOTONIC, 0, &none, NULL) == EINVAL && clock_nanosleep(CLOCK_REALTIME, 0, &past, NULL) == EINVAL);
	CHECK(clock_nanosleep(999, 0, &until, NULL) == EINVAL);
	FAILS(nanosleep(&none, NULL), EINVAL);
	puts("moments");
}

int main(void)
{
	one_clock();
	resolutions();
	moments();
	return 0;
}
