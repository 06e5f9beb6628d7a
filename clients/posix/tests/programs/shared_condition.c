/* A condition that two processes share.
 * prints: ok
 * schedules: 40 */
#include <pthread.h>
#include <sys/mman.h>
#include <sys/wait.h>
#include <unistd.h>
#include <stdio.h>
struct sh {
	pthread_mutex_t m;
	pthread_cond_t c;
	int go;
};
int main(void)
{
	struct sh *s = mmap(0, 4096, PROT_READ | PROT_WRITE, MAP_SHARED | MAP_ANONYMOUS, -1, 0);
	pthread_mutexattr_t ma;
	pthread_condattr_t ca;
	pthread_mutexattr_init(&ma);
	pthread_mutexattr_setpshared(&ma, 1);
	pthread_condattr_init(&ca);
	pthread_condattr_setpshared(&ca, 1);
	pthread_mutex_init(&s->m, &ma);
	pthread_cond_init(&s->c, &ca);
	if (fork() == 0) {
		pthread_mutex_lock(&s->m);
		while (!s->go)
			pthread_cond_wait(&s->c, &s->m);
		pthread_mutex_unlock(&s->m);
		_exit(0);
	}
	sleep(1);
	pthread_mutex_lock(&s->m);
	s->go = 1;
	pthread_cond_signal(&s->c);
	pthread_mutex_unlock(&s->m);
	wait(0);
	puts("ok");
	return 0;
}
