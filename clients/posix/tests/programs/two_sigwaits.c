/* Two threads wait for one signal each; the signals are sent at once, or when both wait.
 * flags: -DWAITS=0 | -DWAITS=1
 * prints: 2
 * schedules: 200 */
#include <pthread.h>
#include <semaphore.h>
#include <signal.h>
#include <stdatomic.h>
#include <stdio.h>
#include <unistd.h>
static sigset_t s;
static atomic_int n;
static sem_t taken;
static void *t(void *a)
{
	int g;
	sigwait(&s, &g);
	n++;
	sem_post(&taken);
	return 0;
}
int main(void)
{
	pthread_t p[2];
	sem_init(&taken, 0, 0);
	sigemptyset(&s);
	sigaddset(&s, SIGUSR1);
	pthread_sigmask(SIG_BLOCK, &s, 0);
	for (int i = 0; i < 2; i++)
		pthread_create(p + i, 0, t, 0);
	if (WAITS)
		sleep(1);
	for (int i = 0; i < 2; i++) {
		kill(getpid(), SIGUSR1);
		sem_wait(&taken); /* two that are pending would be one */
	}
	for (int i = 0; i < 2; i++)
		pthread_join(p[i], 0);
	printf("%d\n", n);
	return 0;
}
