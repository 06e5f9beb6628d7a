/*
 * A debugger that keeps the numbers of the LWPs that have reported a stop, and
 * looks at each of them at each stop.
 *
 * The race: one thread calls execve(2) before another has come to its end.
 * The exec takes the other threads away, and a number in the table is unused.
 * The remedy: at each stop ask for the list of LWPs, and keep no other.
 * Known from: ptrace(2), PT_GETLWPLIST, and gdb for FreeBSD, which reads that
 * list anew and drops threads that are no longer in it.
 */
#include <sys/types.h>
#include <sys/ptrace.h>
#include <sys/wait.h>
#include <err.h>
#include <pthread.h>
#include <signal.h>
#include <stdio.h>
#include <unistd.h>

static lwpid_t lwps[16];
static int count;

static void *
exec_true(void *argument)
{
	usleep(1000);
	execl("/usr/bin/true", "true", (char *)NULL);
	return (argument);
}

static void
run_target(void)
{
	pthread_t thread;

	if (ptrace(PT_TRACE_ME, 0, NULL, 0) != 0)
		_exit(2);
	raise(SIGSTOP);
	if (pthread_create(&thread, NULL, exec_true, NULL) != 0)
		_exit(2);
	raise(SIGUSR1);
	_exit(0);
}

static struct ptrace_lwpinfo
look_at(pid_t id)
{
	struct ptrace_lwpinfo pl;

	if (ptrace(PT_LWPINFO, id, (caddr_t)&pl, sizeof(pl)) != 0)
		err(1, "PT_LWPINFO of %d", (int)id);
	return (pl);
}

static void
update_table(pid_t pid)
{
#ifdef RIGHT
	if ((count = ptrace(PT_GETLWPLIST, pid, (caddr_t)lwps, 16)) <= 0)
		err(1, "PT_GETLWPLIST");
#else
	lwpid_t reporting = look_at(pid).pl_lwpid;

	for (int i = 0; i < count; i++)
		if (lwps[i] == reporting)
			return;
	lwps[count++] = reporting;
#endif
}

int
main(void)
{
	pid_t pid = fork();
	int status, stops = 0;

	if (pid == -1)
		err(1, "fork");
	if (pid == 0)
		run_target();
	while (waitpid(pid, &status, 0) == pid && WIFSTOPPED(status)) {
		stops++;
		update_table(pid);
		for (int i = 0; i < count; i++)
			(void)look_at(lwps[i]);
		if (ptrace(PT_CONTINUE, pid, (caddr_t)1, 0) != 0)
			err(1, "PT_CONTINUE");
	}
	if (!WIFEXITED(status))
		errx(1, "the target was ended by signal %d", WTERMSIG(status));
	printf("the target exited with %d, after %d stops\n", WEXITSTATUS(status), stops);
	return (WEXITSTATUS(status));
}
