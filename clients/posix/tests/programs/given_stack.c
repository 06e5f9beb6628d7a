/* A thread on a small stack of the program's, which is freed once the thread has said that it is done.
 *
 * prints: done|joined
 * schedules: 20
 */
#include <limits.h>
#include <pthread.h>
#include <semaphore.h>
#include <stdio.h>
#include <stdlib.h>
#include <unistd.h>

enum { SIZE = 65536 };

static sem_t done;

static void *run(void *argument)
{
	(void)argument;
	getpid();
	return NULL;
}

static void *post(void *argument)
{
	run(argument);
	sem_post(&done);
	return NULL;
}

static void start(pthread_t *thread, void *(*routine)(void *), int state, void *stack)
{
	pthread_attr_t attributes;
	pthread_attr_init(&attributes);
	pthread_attr_setdetachstate(&attributes, state);
	if (pthread_attr_setstack(&attributes, stack, SIZE) != 0 || pthread_create(thread, &attributes, routine, NULL) != 0)
		exit(1);
	pthread_attr_destroy(&attributes);
}

int main(void)
{
	pthread_t thread;
	void *stacks[3]; /* the last one keeps the others mapped: natively a thread that is done may still have to end */
	for (int i = 0; i < 3; i++)
		if (posix_memalign(&stacks[i], 4096, SIZE) != 0)
			return 1;
	sem_init(&done, 0, 0);
	start(&thread, post, PTHREAD_CREATE_DETACHED, stacks[0]);
	sem_wait(&done);
	usleep(10000);
	free(stacks[0]);
	puts("done");
	start(&thread, run, PTHREAD_CREATE_JOINABLE, stacks[1]);
	if (pthread_join(thread, NULL) != 0)
		return 1;
	free(stacks[1]);
	puts("joined");
	return 0;
}
