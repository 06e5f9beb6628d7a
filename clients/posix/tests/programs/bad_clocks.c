/* Clocks and times that there aren't.
 * prints: 22 22 22 22 22 110 */
#include <errno.h>
#include <pthread.h>
#include <stdio.h>
#include <time.h>
int main(void)
{
	struct timespec bad = {0, 1000000000}, past = {1, 0}, now;
	pthread_mutex_t mutex = PTHREAD_MUTEX_INITIALIZER;
	pthread_cond_t condition = PTHREAD_COND_INITIALIZER;
	int clock = clock_gettime(-1, &now) == 0 ? 0 : errno, sleep = nanosleep(&bad, NULL) == 0 ? 0 : errno;

	pthread_mutex_lock(&mutex);
	printf("%d %d %d %d %d %d\n", clock, sleep, clock_nanosleep(-1, 0, &past, NULL), clock_nanosleep(CLOCK_REALTIME, 0, &bad, NULL),
	       pthread_cond_timedwait(&condition, &mutex, &bad), pthread_cond_timedwait(&condition, &mutex, &past));
	return clock_gettime(CLOCK_MONOTONIC, &now);
}
