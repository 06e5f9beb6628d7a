/* Locks whose time is over, and those that are tried.
 * prints: 110 16 110 110 16 110 16
 * schedules: 20 */
#include <errno.h>
#include <pthread.h>
#include <semaphore.h>
#include <stdio.h>
#include <time.h>
static pthread_mutex_t mutex = PTHREAD_MUTEX_INITIALIZER;
static pthread_rwlock_t rwlock = PTHREAD_RWLOCK_INITIALIZER;
static pthread_spinlock_t spin;
static sem_t semaphore;
static void *work(void *given)
{
	struct timespec soon;

	clock_gettime(CLOCK_REALTIME, &soon);
	soon.tv_nsec += 1000000;
	if (soon.tv_nsec >= 1000000000)
		soon.tv_sec++, soon.tv_nsec -= 1000000000;
	int mutex_late = pthread_mutex_timedlock(&mutex, &soon), mutex_busy = pthread_mutex_trylock(&mutex);
	int write_late = pthread_rwlock_timedwrlock(&rwlock, &soon), read_late = pthread_rwlock_timedrdlock(&rwlock, &soon);
	int read_busy = pthread_rwlock_tryrdlock(&rwlock);
	int semaphore_late = sem_timedwait(&semaphore, &soon) == 0 ? 0 : errno;
	printf("%d %d %d %d %d %d %d\n", mutex_late, mutex_busy, write_late, read_late, read_busy, semaphore_late, pthread_spin_trylock(&spin));
	return given;
}
int main(void)
{
	pthread_t thread;

	sem_init(&semaphore, 0, 0);
	pthread_spin_init(&spin, 0);
	pthread_mutex_lock(&mutex);
	pthread_rwlock_wrlock(&rwlock);
	pthread_spin_lock(&spin);
	pthread_create(&thread, NULL, work, NULL);
	return pthread_join(thread, NULL);
}
