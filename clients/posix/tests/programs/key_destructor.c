/* The destructor of a thread's key makes a call.
 * prints: ok
 * schedules: 40 */
#include <pthread.h>
#include <unistd.h>
#include <stdio.h>
static pthread_key_t k;
static void d(void *v)
{
	getpid();
}
static void *t(void *a)
{
	pthread_setspecific(k, &k);
	return 0;
}
int main(void)
{
	pthread_t p;
	pthread_key_create(&k, d);
	pthread_create(&p, 0, t, 0);
	pthread_join(p, 0);
	puts("ok");
	return 0;
}
