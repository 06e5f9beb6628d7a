/* Two threads sleep.
 * schedules: 100
 * natively: no */
#include <pthread.h>
#include <signal.h>
#include <unistd.h>
static void *th(void *a)
{
	for (int i = 0; i < 3; i++)
		sleep(60);
	return 0;
}
int main(void)
{
	pthread_t t;
	pthread_create(&t, 0, th, 0);
	for (int i = 0; i < 3; i++)
		sleep(60);
	pthread_join(t, 0);
	return 0;
}
