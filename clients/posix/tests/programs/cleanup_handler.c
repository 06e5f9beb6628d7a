/* A cleanup handler of an exiting thread unlocks a mutex.
 * prints: ok
 * schedules: 40 */
#include <pthread.h>
#include <unistd.h>
#include <stdio.h>
static pthread_mutex_t m = PTHREAD_MUTEX_INITIALIZER;
static void c(void *v)
{
	pthread_mutex_unlock(&m);
}
static void *t(void *a)
{
	pthread_mutex_lock(&m);
	pthread_cleanup_push(c, 0);
	pthread_exit(0);
	pthread_cleanup_pop(0);
	return 0;
}
int main(void)
{
	pthread_t p;
	pthread_create(&p, 0, t, 0);
	pthread_join(p, 0);
	pthread_mutex_lock(&m);
	puts("ok");
	return 0;
}
