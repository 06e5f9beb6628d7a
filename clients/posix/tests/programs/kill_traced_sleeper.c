/* PT_KILL of a process that has been sent a signal.
 * natively: no
 * schedules: 100 */
#include <sys/types.h>
#include <sys/ptrace.h>
#include <sys/wait.h>
#include <pthread.h>
#include <signal.h>
#include <unistd.h>
static void *th(void *a)
{
	for (;;)
		sleep(60);
	return 0;
}
int main(void)
{
	int s;
	pid_t c = fork();
	if (c == 0) {
		pthread_t t;
		ptrace(PT_TRACE_ME, 0, 0, 0);
		raise(SIGSTOP);
		pthread_create(&t, 0, th, 0);
		pthread_kill(t, SIGUSR2);
		for (;;)
			sleep(60);
	}
	waitpid(c, &s, 0);
	ptrace(PT_CONTINUE, c, (caddr_t)1, 0);
	waitpid(c, &s, 0);
	ptrace(PT_KILL, c, 0, 0);
	waitpid(c, &s, 0);
	return 0;
}
