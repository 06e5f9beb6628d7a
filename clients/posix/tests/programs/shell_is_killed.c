/* A shell whose process is ended, or stopped and continued, while it calls kill.
 * prints: done 10
 * schedules: 40 */
#include <sys/types.h>
#include <sys/wait.h>
#include <signal.h>
#include <stdio.h>
#include <unistd.h>

static volatile sig_atomic_t got;
static void note(int number) { got = number; }

/* Waits for SIGUSR1, and for the shell's number. */
static void ends_the_shell(int in, int stops, const sigset_t *old)
{
	pid_t shell;
	while (!got)
		sigsuspend(old);
	read(in, &shell, sizeof shell);
	if (stops) {
		kill(shell, SIGSTOP);
		kill(shell, SIGCONT);
	} else
		kill(shell, SIGKILL);
	_exit(0);
}

int main(void)
{
	int done = 0;
	sigset_t usr1, old;
	signal(SIGUSR1, note);
	sigemptyset(&usr1);
	sigaddset(&usr1, SIGUSR1);
	sigprocmask(SIG_BLOCK, &usr1, &old);
	for (int i = 0; i < 10; i++) {
		char command[100];
		int ends[2], status;
		pipe(ends);
		pid_t target = fork();
		if (target == 0)
			ends_the_shell(ends[0], i & 1, &old);
		snprintf(command, sizeof command, "kill -USR1 %d; kill -0 %d; kill -0 %d 2>/dev/null; exit 0", target, target, target);
		pid_t shell = fork();
		if (shell == 0) {
			dup2(open("/dev/null", 1 /* O_WRONLY */), 2);
			execl("/bin/sh", "sh", "-c", command, (char *)NULL);
			_exit(99);
		}
		write(ends[1], &shell, sizeof shell);
		waitpid(target, &status, 0);
		done += status == 0;
		waitpid(shell, &status, 0);
		done -= status != 0 && !(WIFSIGNALED(status) && WTERMSIG(status) == SIGKILL);
		close(ends[0]);
		close(ends[1]);
	}
	printf("done %d\n", done);
	return 0;
}
