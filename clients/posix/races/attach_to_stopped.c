/*
 * A collector that attaches to a process which stops itself for a while by job control, and detaches again.
 *
 * The race: if the process had stopped before PT_ATTACH, its job stop is over with the trace stop, and PT_DETACH with 0
 * lets it run: the parent that has seen it stop, and continues it, waits for a stop that is over.
 * The remedy: the one that continues asks for a continuation only if it is still stopped, by WNOHANG.
 */
#include "races.h"

int
main(void)
{
	pid_t collector, pid;
	int status;

	if ((pid = fork()) == 0) {
		raise(SIGSTOP);
		_exit(7);
	}
	if ((collector = fork()) == 0) {
		usleep(1000);
		if (ptrace(PT_ATTACH, pid, NULL, 0) != 0)
			_exit(errno == ESRCH ? 0 : 1); /* it has ended */
		do
			if (waitpid(pid, &status, 0) != pid)
				_exit(2);
		while (!WIFSTOPPED(status) && !WIFEXITED(status));
		if (WIFSTOPPED(status) && ptrace(PT_DETACH, pid, (caddr_t)1, 0) != 0)
			_exit(3);
		_exit(0);
	}
	if (collector == -1 || pid == -1)
		err(1, "fork");
#ifdef RIGHT
	do {
		if (waitpid(pid, &status, WUNTRACED) != pid)
			err(1, "waitpid");
		if (WIFSTOPPED(status))
			kill(pid, SIGCONT);
	} while (!WIFEXITED(status));
#else
	if (waitpid(pid, &status, WUNTRACED) != pid)
		err(1, "waitpid");
	if (!WIFSTOPPED(status))
		errx(1, "status %#x instead of a stop", status);
	kill(pid, SIGCONT);
	if (waitpid(pid, &status, 0) != pid)
		err(1, "waitpid");
#endif
	if (!WIFEXITED(status) || WEXITSTATUS(status) != 7)
		errx(1, "status %#x instead of exit 7", status);
	return (waitpid(collector, &status, 0) == collector && status == 0 ? 0 : 1);
}
