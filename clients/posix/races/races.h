/* What the racy debuggers have in common. Plain FreeBSD C. */
#ifndef RACES_H
#define RACES_H

#include <sys/types.h>
#include <sys/ptrace.h>
#include <sys/wait.h>
#include <err.h>
#include <errno.h>
#include <pthread.h>
#include <signal.h>
#include <stdio.h>
#include <stdlib.h>
#include <string.h>
#include <unistd.h>

/* A target that its debugger traces, and that raises so many signals, SIGUSR1 and SIGUSR2 in turn, after its first stop. */
static inline pid_t
start_target(int signals)
{
	pid_t pid;
	int i;

	if ((pid = fork()) == -1)
		err(1, "fork");
	if (pid == 0) {
		signal(SIGCHLD, SIG_DFL);
		if (ptrace(PT_TRACE_ME, 0, NULL, 0) != 0)
			_exit(2);
		raise(SIGSTOP);
		for (i = 0; i < signals; i++)
			raise(i % 2 == 0 ? SIGUSR1 : SIGUSR2);
		_exit(7);
	}
	return (pid);
}

/* What a target does that its debugger traces, and that forks a child after its first stop. */
static inline void
run_forking_target(void)
{
	pid_t pid;

	if (ptrace(PT_TRACE_ME, 0, NULL, 0) != 0)
		_exit(2);
	raise(SIGSTOP);
	if ((pid = fork()) == 0)
		_exit(0);
	(void)waitpid(pid, NULL, 0);
	_exit(0);
}

static inline int
is_in(const pid_t table[], int count, pid_t pid)
{
	for (int i = 0; i < count; i++)
		if (table[i] == pid)
			return (1);
	return (0);
}

static inline void
request(int number, pid_t pid, int data)
{

	if (ptrace(number, pid, (caddr_t)1, data) != 0)
		err(1, "request %d of %d", number, pid);
}

static inline int
await(pid_t pid)
{
	int status;

	if (waitpid(pid, &status, 0) != pid)
		err(1, "waitpid %d", pid);
	return (status);
}

static inline void
await_stop(pid_t pid, int sig)
{
	int status = await(pid);

	if (!WIFSTOPPED(status) || WSTOPSIG(status) != sig)
		errx(1, "status %#x of %d instead of a stop by %s", status, pid, strsignal(sig));
}

#endif
