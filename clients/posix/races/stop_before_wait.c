/*
 * A debugger that attaches to a process and acts on it at once.
 *
 * The race: PT_ATTACH stops the process, but requests are refused until a wait has reported that stop. Here the wait is a
 * SIGCHLD handler's, which is often there in time: the one SIGCHLD may be that of another child.
 * The remedy: the debugger waits for the process that it has attached to.
 */
#include "races.h"

static void
on_chld(int sig)
{
	int saved = errno, status;

	(void)sig;
	if (waitpid(-1, &status, WNOHANG) < 0) /* one wait for one signal */
		status = 0;
	errno = saved;
}

int
main(void)
{
	pid_t helper, pid;
	int ends[2];
	char c;

	if (pipe(ends) != 0)
		err(1, "pipe");
#ifndef RIGHT
	struct sigaction act = { .sa_handler = on_chld, .sa_flags = SA_RESTART };

	sigaction(SIGCHLD, &act, NULL);
#else
	(void)on_chld;
#endif
	if ((helper = fork()) == 0)
		_exit(0);
	if ((pid = fork()) == 0) {
		signal(SIGCHLD, SIG_DFL);
		close(ends[1]);
		_exit(read(ends[0], &c, 1) == 0 ? 0 : 1);
	}
	if (helper == -1 || pid == -1)
		err(1, "fork");
	request(PT_ATTACH, pid, 0);
#ifdef RIGHT
	await_stop(pid, SIGSTOP);
#endif
	request(PT_DETACH, pid, 0);
	close(ends[0]);
	close(ends[1]);
	return (0);
}
