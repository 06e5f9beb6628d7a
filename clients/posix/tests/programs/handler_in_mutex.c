/* A handler runs in a thread that waits for a mutex.
 * prints: ok
 * schedules: 40 */
#include <pthread.h>
#include <semaphore.h>
#include <signal.h>
#include <stdio.h>
#include <unistd.h>
static sem_t s;
static pthread_mutex_t m = PTHREAD_MUTEX_INITIALIZER;
static void h(int x)
{
	sem_post(&s);
}
static void *t(void *a)
{
	pthread_mutex_lock(&m);
	pthread_mutex_unlock(&m);
	return 0;
}
int main(void)
{
	pthread_t p;
	sem_init(&s, 0, 0);
	signal(SIGUSR1, h);
	pthread_mutex_lock(&m);
	pthread_create(&p, 0, t, 0);
	sleep(1);
	pthread_kill(p, SIGUSR1);
	sem_wait(&s);
	pthread_mutex_unlock(&m);
	pthread_join(p, 0);
	puts("ok");
	return 0;
}
