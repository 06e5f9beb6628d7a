/* pthread_cancel(3) of threads that sleep, wait for a condition, a semaphore, a pipe and another thread. Each has said that
 * its clean-up handler is there before it is cancelled.
 * prints: 5 cancelled, 5 cleaned up
 * schedules: 40 */
#include <pthread.h>
#include <semaphore.h>
#include <stdatomic.h>
#include <stdio.h>
#include <unistd.h>
static pthread_mutex_t mutex = PTHREAD_MUTEX_INITIALIZER;
static pthread_cond_t condition = PTHREAD_COND_INITIALIZER;
static sem_t semaphore, ready;
static int ends[2];
static atomic_int cleaned;
static pthread_t first;
static void clean_up(void *given)
{
	cleaned++;
	pthread_mutex_unlock(&mutex);
}
static void *sleep_long(void *given)
{
	pthread_mutex_lock(&mutex);
	pthread_cleanup_push(clean_up, NULL);
	sem_post(&ready);
	for (;;)
		sleep(1000);
	pthread_cleanup_pop(0);
	return NULL;
}
static void *await_condition(void *given)
{
	pthread_mutex_lock(&mutex);
	pthread_cleanup_push(clean_up, NULL);
	sem_post(&ready);
	for (;;)
		pthread_cond_wait(&condition, &mutex);
	pthread_cleanup_pop(0);
	return NULL;
}
static void count(void *given)
{
	cleaned++;
}
static void *await_semaphore(void *given)
{
	pthread_cleanup_push(count, NULL);
	sem_post(&ready);
	sem_wait(&semaphore);
	pthread_cleanup_pop(0);
	return NULL;
}
static void *await_byte(void *given)
{
	char byte;

	pthread_cleanup_push(count, NULL);
	sem_post(&ready);
	read(ends[0], &byte, 1);
	pthread_cleanup_pop(0);
	return NULL;
}
static void *await_thread(void *given)
{
	pthread_cleanup_push(count, NULL);
	sem_post(&ready);
	pthread_join(first, NULL);
	pthread_cleanup_pop(0);
	return NULL;
}
int main(void)
{
	static void *(*const routines[])(void *) = {await_semaphore, await_byte, await_thread, await_condition, sleep_long};
	pthread_t threads[5];
	void *result;
	int cancelled = 0;

	first = pthread_self();
	pipe(ends);
	sem_init(&semaphore, 0, 0);
	sem_init(&ready, 0, 0);
	for (int i = 0; i < 5; i++) {
		pthread_create(&threads[i], NULL, routines[i], NULL);
		sem_wait(&ready);
	}
	usleep(1000); /* so most of them wait when they are cancelled */
	for (int i = 0; i < 5; i++)
		pthread_cancel(threads[i]);
	for (int i = 0; i < 5; i++) {
		pthread_join(threads[i], &result);
		cancelled += result == PTHREAD_CANCELED;
	}
	printf("%d cancelled, %d cleaned up\n", cancelled, cleaned);
	return 0;
}
