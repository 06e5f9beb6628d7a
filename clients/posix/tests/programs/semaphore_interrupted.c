/* A signal ends sem_wait(3).
 * prints: -1 1 */
#include <semaphore.h>
#include <signal.h>
#include <stdio.h>
#include <errno.h>
#include <unistd.h>
static void h(int x)
{
}
int main(void)
{
	sem_t s;
	struct sigaction a = {.sa_handler = h};
	sem_init(&s, 0, 0);
	sigaction(SIGALRM, &a, 0);
	alarm(1);
	int r = sem_wait(&s);
	printf("%d %d\n", r, errno == EINTR);
	return r != -1;
}
