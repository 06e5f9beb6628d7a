/* A signal for a thread that sleeps once, or three times with another one blocked.
 * flags: -DSLEEPS=1 | -DSLEEPS=3
 * schedules: 1000
 * natively: no */
#include <pthread.h>
#include <signal.h>
#include <unistd.h>
static void h(int s)
{
}
static void *th(void *a)
{
	sigset_t m;
	sigemptyset(&m);
	sigaddset(&m, SIGUSR1);
	if (SLEEPS > 1)
		pthread_sigmask(SIG_BLOCK, &m, 0);
	for (int i = 0; i < SLEEPS; i++)
		sleep(60);
	return 0;
}
int main(void)
{
	pthread_t t;
	signal(SIGUSR2, h);
	pthread_create(&t, 0, th, 0);
	pthread_kill(t, SIGUSR2);
	for (int i = 0; i < SLEEPS; i++)
		sleep(60);
	pthread_join(t, 0);
	return 0;
}
