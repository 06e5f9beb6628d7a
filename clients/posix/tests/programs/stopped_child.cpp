/* A child stops itself: statuses and signals have FreeBSD's numbers.
 * natively: no
 * prints: 1 1 st 117f SIGSTOP=17 pid 1000|9
 * schedules: 40 */
#include <unistd.h>
#include <sys/wait.h>
#include <signal.h>
#include <stdio.h>
int main()
{
	pid_t p = fork();
	if (!p) {
		kill(getpid(), SIGSTOP);
		_exit(3);
	}
	int st;
	pid_t w = waitpid(p, &st, WUNTRACED);
	printf("%d %d st %x SIGSTOP=%d pid %d\n", w == p, WIFSTOPPED(st), st, SIGSTOP, getpid());
	kill(p, SIGKILL);
	waitpid(p, &st, 0);
	printf("%x\n", st);
	return 0;
}
