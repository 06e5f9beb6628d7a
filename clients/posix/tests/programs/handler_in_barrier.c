/* Handlers run in threads that wait for a barrier, and for a read-write lock.
 * prints: 2
 * schedules: 40 */
#include <pthread.h>
#include <semaphore.h>
#include <signal.h>
#include <stdio.h>
#include <unistd.h>
static pthread_barrier_t barrier;
static pthread_rwlock_t rwlock = PTHREAD_RWLOCK_INITIALIZER;
static sem_t handled;
static volatile int count;
static void handle(int number)
{
	count++;
	sem_post(&handled);
}
static void *meet(void *given)
{
	pthread_barrier_wait(&barrier);
	return given;
}
static void *lock(void *given)
{
	pthread_rwlock_wrlock(&rwlock);
	pthread_rwlock_unlock(&rwlock);
	return given;
}
int main(void)
{
	pthread_t threads[2];

	signal(SIGUSR1, handle);
	sem_init(&handled, 0, 0);
	pthread_barrier_init(&barrier, NULL, 2);
	pthread_rwlock_rdlock(&rwlock);
	pthread_create(&threads[0], NULL, meet, NULL);
	pthread_create(&threads[1], NULL, lock, NULL);
	for (int i = 0; i < 2; i++) {
		pthread_kill(threads[i], SIGUSR1);
		while (sem_wait(&handled) != 0)
			;
	}
	pthread_barrier_wait(&barrier);
	pthread_rwlock_unlock(&rwlock);
	for (int i = 0; i < 2; i++)
		pthread_join(threads[i], NULL);
	printf("%d\n", count);
	return 0;
}
