/* pthread_kill(3) of the main thread.
 * schedules: 40 */
#include <pthread.h>
#include <signal.h>
#include <stdio.h>
static pthread_t m;
static void h(int x)
{
}
static void *t(void *a)
{
	return pthread_kill(m, SIGUSR1) == 0 ? NULL : &m;
}
int main(void)
{
	pthread_t p;
	m = pthread_self();
	signal(SIGUSR1, h);
	pthread_create(&p, 0, t, 0);
	void *result;
	pthread_join(p, &result);
	return result != NULL;
}
