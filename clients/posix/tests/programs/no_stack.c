/* pthread_create(3) without room for a stack.
 * prints: create 11
 * schedules: 40 */
#include <pthread.h>
#include <sched.h>
#include <stdio.h>
static void *t(void *a)
{
	return a;
}
int main(void)
{
	pthread_attr_t a;
	pthread_t p;
	pthread_attr_init(&a);
	pthread_attr_setstacksize(&a, 1UL << 50);
	int r = pthread_create(&p, &a, t, 0);
	printf("create %d\n", r);
	return 0;
}
