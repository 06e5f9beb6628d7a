/* Two threads compute, and spin on each other's flags. */
#include <pthread.h>
static volatile int a, b;
static void *t(void *x)
{
	while (!a)
		;
	b = 1;
	return 0;
}
int main(void)
{
	pthread_t p;
	pthread_create(&p, 0, t, 0);
	for (volatile long i = 0; i < 500000000; i++)
		;
	a = 1;
	while (!b)
		;
	pthread_join(p, 0);
	return 0;
}
