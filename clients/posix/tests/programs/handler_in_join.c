/* A handler runs in a thread that waits for another's end.
 * prints: ok
 * schedules: 40 */
#include <pthread.h>
#include <signal.h>
#include <stdio.h>
#include <unistd.h>
static pthread_t m;
static int n;
static void h(int x)
{
	n++;
}
static void *t(void *a)
{
	sleep(1);
	pthread_kill(m, SIGUSR1);
	while (!n)
		sleep(1);
	return 0;
}
int main(void)
{
	pthread_t p;
	m = pthread_self();
	signal(SIGUSR1, h);
	pthread_create(&p, 0, t, 0);
	pthread_join(p, 0);
	puts("ok");
	return 0;
}
