/* A thread with a small stack.
 * flags: -DSIZE=32768 | -DSIZE=PTHREAD_STACK_MIN
 * prints: ok
 * schedules: 40 */
#include <limits.h>
#include <pthread.h>
#include <stdio.h>
static void *t(void *a)
{
	return a;
}
int main(void)
{
	pthread_attr_t a;
	pthread_t p;
	pthread_attr_init(&a);
	pthread_attr_setstacksize(&a, SIZE);
	int r = pthread_create(&p, &a, t, 0);
	if (r)
		return 2;
	pthread_join(p, 0);
	puts("ok");
	return 0;
}
