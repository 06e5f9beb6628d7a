/* One thread locks and unlocks, one computes, until the first one has slept.
 *
 * prints: slept|joined
 */
#include <pthread.h>
#include <stdio.h>
#include <unistd.h>

static volatile int go_on = 1;
static pthread_mutex_t mutex = PTHREAD_MUTEX_INITIALIZER;

static void *lock(void *argument)
{
	while (go_on) {
		pthread_mutex_lock(&mutex);
		pthread_mutex_unlock(&mutex);
	}
	return argument;
}

static void *compute(void *argument)
{
	while (go_on)
		;
	return argument;
}

static void sleep_beside(void *(*routine)(void *), useconds_t time)
{
	pthread_t thread;
	go_on = 1;
	if (pthread_create(&thread, NULL, routine, NULL) != 0)
		_exit(1);
	usleep(time);
	go_on = 0;
	pthread_join(thread, NULL);
}

int main(void)
{
	sleep_beside(lock, 300000);
	puts("slept");
	sleep_beside(compute, 300000);
	puts("joined");
	return 0;
}
