/* A timer that rings while its signal is blocked: one signal, and the others are overruns. Times that are none.
 *
 * prints: 1 signal, at least 3 overruns|SIGCONT too|EINVAL EINVAL
 * schedules: 20
 */
#include <errno.h>
#include <signal.h>
#include <stdio.h>
#include <time.h>
#include <unistd.h>

static volatile sig_atomic_t rung;

static void ring(int number)
{
	(void)number;
	rung++;
}

static timer_t make(int number, const struct itimerspec *times)
{
	struct sigevent event = {.sigev_notify = SIGEV_SIGNAL, .sigev_signo = number};
	timer_t timer;
	if (timer_create(CLOCK_REALTIME, &event, &timer) != 0 || timer_settime(timer, 0, times, NULL) != 0)
		_exit(1);
	return timer;
}

int main(void)
{
	struct itimerspec each = {{0, 10000000}, {0, 10000000}}, none = {{0, 0}, {0, 0}};
	struct itimerspec bad[2] = {{{0, 0}, {-1, 0}}, {{-1, 0}, {1, 0}}};
	sigset_t set;
	signal(SIGUSR1, ring);
	sigemptyset(&set);
	sigaddset(&set, SIGUSR1);
	sigaddset(&set, SIGCONT);
	sigprocmask(SIG_BLOCK, &set, NULL);
	timer_t timer = make(SIGUSR1, &each), other = make(SIGCONT, &each);
	for (int i = 0; i < 5; i++)
		usleep(11000);
	sigprocmask(SIG_UNBLOCK, &set, NULL);
	int overruns = timer_getoverrun(timer), of_other = timer_getoverrun(other);
	timer_settime(timer, 0, &none, NULL);
	timer_delete(other);
	printf("%d signal, %s 3 overruns\n", rung > 0, overruns >= 3 ? "at least" : "less than");
	puts(of_other >= 3 ? "SIGCONT too" : "SIGCONT has none");
	for (int i = 0; i < 2; i++)
		printf("%s%c", timer_settime(timer, 0, &bad[i], NULL) == -1 && errno == EINVAL ? "EINVAL" : "0", i == 0 ? ' ' : '\n');
	return 0;
}
