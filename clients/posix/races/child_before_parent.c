/*
 * A debugger that follows forks and has a table of its processes: a fork's
 * parent reports the new number, and the child is put into the table then.
 *
 * The race: both have stopped before the debugger waits, and wait(2), which
 * names no order, reports the child first: a process that nobody knows.
 * The remedy: the first stop of a child, which has PL_FLAG_CHILD, puts it
 * into the table too.
 * Known from: gdb, which remembers such children until their parents' events.
 */
#include "races.h"

static pid_t known[16];
static int count, live;

static void
add(pid_t pid)
{
	if (is_in(known, count, pid))
		return;
	known[count++] = pid;
	live++;
}

static void
stopped(pid_t pid)
{
	struct ptrace_lwpinfo pl;

	if (ptrace(PT_LWPINFO, pid, (caddr_t)&pl, sizeof(pl)) != 0)
		err(1, "PT_LWPINFO");
#ifdef RIGHT
	if (pl.pl_flags & PL_FLAG_CHILD)
		add(pid);
#endif
	if (!is_in(known, count, pid))
		errx(1, "%d isn't mine", (int)pid);
	if (pl.pl_flags & PL_FLAG_FORKED)
		add(pl.pl_child_pid);
	if (ptrace(PT_CONTINUE, pid, (caddr_t)1, 0) != 0)
		err(1, "PT_CONTINUE");
}

int
main(void)
{
	pid_t target = fork(), pid;
	int status;

	if (target == -1)
		err(1, "fork");
	if (target == 0)
		run_forking_target();
	add(target);
	if (waitpid(target, &status, 0) != target || ptrace(PT_FOLLOW_FORK, target, NULL, 1) != 0)
		err(1, "PT_FOLLOW_FORK");
	if (ptrace(PT_CONTINUE, target, (caddr_t)1, 0) != 0)
		err(1, "PT_CONTINUE");
	while (live > 0) {
		if ((pid = wait(&status)) == -1)
			err(1, "wait");
		if (WIFSTOPPED(status))
			stopped(pid);
		else
			live--;
	}
	return (0);
}
