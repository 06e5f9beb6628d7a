/* Timers of timer_create(2): one that rings three times, one that is looked at only, and one that is taken back.
 * prints: 3 1 0 22 0 */
#include <errno.h>
#include <signal.h>
#include <stdio.h>
#include <string.h>
#include <time.h>
#include <unistd.h>
static volatile int rung;
static void ring(int number)
{
	rung++;
}
int main(void)
{
	struct sigevent event = {.sigev_notify = SIGEV_SIGNAL}, none = {.sigev_notify = SIGEV_NONE};
	struct itimerspec often = {{0, 10000000}, {0, 10000000}}, late = {{0, 0}, {100, 0}}, off = {{0, 0}, {0, 0}}, now;
	timer_t first, second;
	sigset_t one, old;

	event.sigev_signo = SIGUSR1;
	signal(SIGUSR1, ring);
	sigemptyset(&one);
	sigaddset(&one, SIGUSR1);
	sigprocmask(SIG_BLOCK, &one, &old);
	if (timer_create(CLOCK_MONOTONIC, &event, &first) != 0 || timer_create(CLOCK_REALTIME, &none, &second) != 0)
		return 1;
	timer_settime(second, 0, &late, NULL);
	timer_settime(first, 0, &often, NULL);
	while (rung < 3)
		sigsuspend(&old);
	timer_settime(first, 0, &off, NULL);
	timer_gettime(second, &now);
	int left = now.it_value.tv_sec == 99;
	timer_delete(second);
	timer_gettime(first, &now);
	int deleted = timer_delete(first);
	printf("%d %d %d %d %d\n", rung, left, (int)now.it_value.tv_sec, timer_create(-1, &event, &first) == 0 ? 0 : errno, deleted);
	return 0;
}
