/* A thread computes until another has set a flag. */
#include <pthread.h>
static volatile int flag;
static void *t(void *a)
{
	flag = 1;
	return 0;
}
int main(void)
{
	pthread_t p;
	pthread_create(&p, 0, t, 0);
	while (!flag)
		;
	pthread_join(p, 0);
	return 0;
}
