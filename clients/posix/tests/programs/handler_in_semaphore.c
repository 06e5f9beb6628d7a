/* A handler posts the semaphore that its thread waits for.
 * prints: handler 1
 * schedules: 40 */
#include <pthread.h>
#include <semaphore.h>
#include <signal.h>
#include <stdio.h>
static sem_t s;
static int n;
static void h(int x)
{
	n = 1;
	sem_post(&s);
}
static void *t(void *a)
{
	while (sem_wait(&s) != 0)
		;
	return 0;
}
int main(void)
{
	pthread_t p;
	sem_init(&s, 0, 0);
	signal(SIGUSR1, h);
	pthread_create(&p, 0, t, 0);
	pthread_kill(p, SIGUSR1);
	pthread_join(p, 0);
	printf("handler %d\n", n);
	return 0;
}
