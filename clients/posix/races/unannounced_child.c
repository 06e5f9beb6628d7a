/*
 * A debugger that follows forks, and knows of a new child by its parent's
 * report. A child that it doesn't know waits for that.
 *
 * The race: the parent is killed after its fork and before the debugger has
 * looked at its report. The child stays in its first stop for ever.
 * The remedy: a process that stops with PL_FLAG_CHILD is one's own, whether
 * or not its parent has reported it.
 * Known from: strace, which takes any process that wait4(2) names into its
 * table, as a child's first stop may be seen before its parent's event.
 */
#include "races.h"

#ifndef RIGHT
static pid_t announced[16];
static int count;
#endif

/* The target has ten seconds. */
static pid_t
start_watchdog(pid_t target)
{
	pid_t pid = fork();

	if (pid == -1)
		err(1, "fork");
	if (pid == 0) {
		sleep(10);
		(void)kill(target, SIGKILL);
		_exit(0);
	}
	return (pid);
}

static void
go_on(pid_t pid)
{
	/* It may have been killed meanwhile, or its stop may have still to come. */
	if (ptrace(PT_CONTINUE, pid, (caddr_t)1, 0) != 0 && errno != ESRCH && errno != EBUSY)
		err(1, "PT_CONTINUE");
}

static void
see_stop(pid_t pid)
{
	struct ptrace_lwpinfo pl;

	if (ptrace(PT_LWPINFO, pid, (caddr_t)&pl, sizeof(pl)) != 0)
		return;
#ifndef RIGHT
	if ((pl.pl_flags & PL_FLAG_FORKED) && count < 16) {
		announced[count++] = pl.pl_child_pid;
		go_on(pl.pl_child_pid);
	}
	if ((pl.pl_flags & PL_FLAG_CHILD) && !is_in(announced, count, pid))
		return;
#endif
	go_on(pid);
}

int
main(void)
{
	pid_t pid, target = fork(), watchdog;
	int status;

	if (target == -1)
		err(1, "fork");
	if (target == 0)
		run_forking_target();
	if (waitpid(target, &status, 0) != target || !WIFSTOPPED(status))
		errx(1, "no first stop");
	watchdog = start_watchdog(target);
	if (ptrace(PT_FOLLOW_FORK, target, NULL, 1) != 0 && errno != ESRCH)
		err(1, "PT_FOLLOW_FORK");
	go_on(target);
	while ((pid = wait(&status)) != -1) {
		if (WIFSTOPPED(status))
			see_stop(pid);
		else if (pid == target)
			(void)kill(watchdog, SIGKILL);
	}
	printf("all have ended\n");
	return (0);
}
