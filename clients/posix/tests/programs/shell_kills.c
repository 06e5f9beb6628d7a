/* A shell's kill, and that of its commands, is one of the program's: with its errors, and with signals by their names. What
 * the shell has made itself it ends too.
 * prints: kill 0 5|/bin/kill 0 5|subshell 0 5|stopped 0 5|killed 0 9|background 0 15|nobody 1|own job 143|parent 9
 * schedules: 20 */
#include <sys/types.h>
#include <sys/wait.h>
#include <signal.h>
#include <stdio.h>
#include <stdlib.h>
#include <unistd.h>

static void note(int number) { _exit(number == SIGUSR1 ? 5 : 6); }

static int result_of(int status) { return WIFSIGNALED(status) ? WTERMSIG(status) : WEXITSTATUS(status); }

/* The result of the command, in which %d is a target's number; and the target's. */
static void run(const char *name, const char *format)
{
	char command[200];
	int status, ends;
	pid_t target = fork(), shell;
	if (target == 0) {
		sigset_t none;
		sigemptyset(&none);
		for (;;)
			sigsuspend(&none);
	}
	snprintf(command, sizeof command, format, target, target, target);
	shell = fork();
	if (shell == 0) {
		execl("/bin/sh", "sh", "-c", command, (char *)NULL);
		_exit(99);
	}
	waitpid(shell, &status, 0);
	waitpid(target, &ends, 0);
	printf("%s %d %d\n", name, result_of(status), result_of(ends));
	fflush(stdout);
}

/* The result of the command. */
static void run_alone(const char *name, const char *command)
{
	int status;
	pid_t shell = fork();
	if (shell == 0) {
		execl("/bin/sh", "sh", "-c", command, (char *)NULL);
		_exit(99);
	}
	waitpid(shell, &status, 0);
	printf("%s %d\n", name, result_of(status));
	fflush(stdout);
}

int main(void)
{
	sigset_t usr1;
	signal(SIGUSR1, note);
	sigemptyset(&usr1);
	sigaddset(&usr1, SIGUSR1);
	sigprocmask(SIG_BLOCK, &usr1, NULL); /* until it waits */
	run("kill", "kill -USR1 %d");
	run("/bin/kill", "env kill -s USR1 %d");
	run("subshell", "(kill -USR1 %d) | cat");
	run("stopped", "kill -STOP %d; kill -CONT %d; kill -USR1 %d");
	run("killed", "kill -9 %d");
	run("background", "kill -TERM %d & wait $!");
	run_alone("nobody", "kill -0 99999999 2>/dev/null");
	run_alone("own job", "sleep 100 & kill $!; wait $! 2>/dev/null; exit $?");
	pid_t parent = fork();
	if (parent == 0) {
		if (fork() == 0) {
			execl("/bin/sh", "sh", "-c", "kill -9 $PPID", (char *)NULL);
			_exit(99);
		}
		for (;;)
			pause();
	}
	int status;
	waitpid(parent, &status, 0);
	printf("parent %d\n", result_of(status));
	return 0;
}
