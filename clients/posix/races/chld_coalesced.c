/*
 * A debugger of two processes that takes one status for each SIGCHLD.
 *
 * The race: both may end before the handler runs, and SIGCHLD is pending once.
 * The remedy: it waits until there is nothing more to report.
 */
#include "races.h"

static int news;

static void
on_chld(int sig)
{

	(void)sig;
}

/* Sleeps until SIGCHLD, and takes a status; `old` has it unblocked. */
static void
take(const sigset_t *old)
{
	int status;

	sigsuspend(old);
#ifdef RIGHT
	while (waitpid(-1, &status, WNOHANG) > 0)
		news++;
#else
	if (waitpid(-1, &status, WNOHANG) > 0)
		news++;
#endif
}

static pid_t
start(int slow)
{
	pid_t pid;

	if ((pid = fork()) == 0) {
		sigset_t none;

		sigemptyset(&none);
		signal(SIGCHLD, SIG_DFL);
		sigprocmask(SIG_SETMASK, &none, NULL);
		if (ptrace(PT_TRACE_ME, 0, NULL, 0) != 0)
			_exit(2);
		raise(SIGSTOP);
		if (slow)
			usleep(1000000);
		_exit(0);
	}
	return (pid);
}

int
main(void)
{
	sigset_t chld, old;
	pid_t pids[2];
	int i;

	signal(SIGCHLD, on_chld);
	sigemptyset(&chld);
	sigaddset(&chld, SIGCHLD);
	sigprocmask(SIG_BLOCK, &chld, &old);
	for (i = 0; i < 2; i++) {
		pids[i] = start(i == 1);
		while (news <= i)
			take(&old);
	}
	for (i = 0; i < 2; i++)
		request(PT_CONTINUE, pids[i], 0);
	while (news < 4)
		take(&old);
	return (0);
}
