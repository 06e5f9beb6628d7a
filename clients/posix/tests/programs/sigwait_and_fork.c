/* A child of a process whose thread waits for SIGTERM has the default action for it.
 * prints: 15
 * schedules: 40 */
#include <pthread.h>
#include <signal.h>
#include <stdio.h>
#include <sys/wait.h>
#include <unistd.h>
static sigset_t term;
static void *await(void *given)
{
	int number;

	sigwait(&term, &number);
	return given;
}
int main(void)
{
	pthread_t thread;
	int status;
	pid_t pid;

	sigemptyset(&term);
	sigaddset(&term, SIGTERM);
	sigprocmask(SIG_BLOCK, &term, NULL);
	pthread_create(&thread, NULL, await, NULL);
	sleep(1);
	if ((pid = fork()) == 0) {
		sigprocmask(SIG_UNBLOCK, &term, NULL);
		for (;;)
			pause();
	}
	kill(pid, SIGTERM);
	waitpid(pid, &status, 0);
	kill(getpid(), SIGTERM);
	pthread_join(thread, NULL);
	printf("%d\n", WTERMSIG(status));
	return 0;
}
