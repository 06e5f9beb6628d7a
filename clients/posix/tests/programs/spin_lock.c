/* A spin lock whose holder sleeps.
 * schedules: 40 */
#include <pthread.h>
#include <unistd.h>
static pthread_spinlock_t l;
static void *t(void *x)
{
	pthread_spin_lock(&l);
	pthread_spin_unlock(&l);
	return 0;
}
int main(void)
{
	pthread_t p;
	pthread_spin_init(&l, 0);
	pthread_spin_lock(&l);
	pthread_create(&p, 0, t, 0);
	sleep(1);
	pthread_spin_unlock(&l);
	pthread_join(p, 0);
	return 0;
}
