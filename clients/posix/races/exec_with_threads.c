/*
 * A debugger that keeps a list of its target's threads, and asks about each at every stop.
 *
 * The race: an exec takes the other threads away. A thread may have reported its birth before the exec, or not: the list
 * names threads that aren't there.
 * The remedy: at PL_FLAG_EXEC the list begins anew.
 */
#include "races.h"

enum { ROOM = 16 };

static lwpid_t threads[ROOM];
static int count;

static void *
idle(void *arg)
{

	for (;;)
		pause();
	return (arg);
}

static void
target(void)
{
	pthread_t t;

	if (ptrace(PT_TRACE_ME, 0, NULL, 0) != 0)
		_exit(2);
	raise(SIGSTOP);
	if (pthread_create(&t, NULL, idle, NULL) != 0)
		_exit(2);
	execlp("true", "true", (char *)NULL);
	_exit(3);
}

int
main(void)
{
	struct ptrace_lwpinfo pl, other;
	pid_t pid;
	int i, status;

	if ((pid = fork()) == 0)
		target();
	await_stop(pid, SIGSTOP);
	request(PT_LWP_EVENTS, pid, 1);
	request(PT_CONTINUE, pid, 0);
	while (status = await(pid), WIFSTOPPED(status)) {
		if (ptrace(PT_LWPINFO, pid, (caddr_t)&pl, sizeof(pl)) != 0)
			err(1, "PT_LWPINFO");
		if (pl.pl_flags & PL_FLAG_BORN)
			threads[count++] = pl.pl_lwpid;
#ifdef RIGHT
		if (pl.pl_flags & PL_FLAG_EXEC)
			count = 0;
#endif
		for (i = 0; i < count; i++)
			if (ptrace(PT_LWPINFO, threads[i], (caddr_t)&other, sizeof(other)) != 0)
				err(1, "PT_LWPINFO of thread %d", threads[i]);
		request(PT_CONTINUE, pid, 0);
	}
	return (WIFEXITED(status) && WEXITSTATUS(status) == 0 ? 0 : 1);
}
