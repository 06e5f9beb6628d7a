/* What a thread is told of its stack is what was asked for.
 *
 * prints: size as asked, inside: 1 1
 * schedules: 5
 */
#define _GNU_SOURCE
#include <pthread.h>
#include <stdio.h>
#include <stdlib.h>

enum { SIZE = 131072 };

static void *look(void *argument)
{
	pthread_attr_t attributes;
	void *lowest;
	size_t size;
	char here;
	(void)argument;
	if (pthread_getattr_np(pthread_self(), &attributes) != 0 || pthread_attr_getstack(&attributes, &lowest, &size) != 0)
		exit(1);
	pthread_attr_destroy(&attributes);
	printf("size as asked, inside: %d %d\n", size == SIZE, &here >= (char *)lowest && &here < (char *)lowest + size);
	return NULL;
}

int main(void)
{
	pthread_attr_t attributes;
	pthread_t thread;
	pthread_attr_init(&attributes);
	pthread_attr_setstacksize(&attributes, SIZE);
	if (pthread_create(&thread, &attributes, look, NULL) != 0)
		return 1;
	return pthread_join(thread, NULL);
}
