/* pthread_kill(3) of a detached thread.
 * schedules: 0 */
#include <pthread.h>
#include <signal.h>
#include <stdio.h>
#include <unistd.h>
static void h(int x)
{
}
static void *t(void *a)
{
	pause();
	return 0;
}
int main(void)
{
	pthread_t p;
	signal(SIGUSR1, h);
	pthread_create(&p, 0, t, 0);
	pthread_detach(p);
	sleep(1);
	return pthread_kill(p, SIGUSR1);
}
