/*
 * A debugger that lets its target run to a breakpoint, takes it out, and detaches.
 *
 * The race: two threads may have met the breakpoint. The stop of one was reported; the SIGTRAP of the other is still to come
 * at PT_DETACH, and ends the target.
 * The remedy: it looks at what is pending for the other threads, and takes those stops first.
 */
#include "races.h"

extern char place[]; /* both threads come by; a nop, so that no program counter is set back */

static __attribute__((noinline)) void
come_by(void)
{

	__asm__ volatile(".globl place\nplace: nop");
}

static void *
work(void *arg)
{
	int i;

	for (i = 0; i < 3; i++) {
		sched_yield();
		come_by();
	}
	return (arg);
}

static void
target(void)
{
	pthread_t t;

	if (ptrace(PT_TRACE_ME, 0, NULL, 0) != 0)
		_exit(2);
	raise(SIGSTOP);
	if (pthread_create(&t, NULL, work, NULL) != 0)
		_exit(2);
	work(NULL);
	pthread_join(t, NULL);
	_exit(0);
}

/* Writes the first byte at `place`. */
static void
put(pid_t pid, int byte)
{
	int text = ptrace(PT_READ_I, pid, place, 0);

	if (ptrace(PT_WRITE_I, pid, place, (text & ~0xff) | byte) != 0)
		err(1, "PT_WRITE_I");
}

#ifdef RIGHT
static int
another_trap_is_pending(pid_t pid)
{
	struct ptrace_lwpinfo pl;
	lwpid_t lwps[16];
	int i, n;

	n = ptrace(PT_GETLWPLIST, pid, (caddr_t)lwps, 16);
	for (i = 0; i < n; i++)
		if (ptrace(PT_LWPINFO, lwps[i], (caddr_t)&pl, sizeof(pl)) == 0 && sigismember(&pl.pl_siglist, SIGTRAP))
			return (1);
	return (0);
}
#endif

int
main(void)
{
	pid_t pid;
	int status;

	if ((pid = fork()) == -1)
		err(1, "fork");
	if (pid == 0)
		target();
	await_stop(pid, SIGSTOP);
	put(pid, 0xcc);
	request(PT_CONTINUE, pid, 0);
	await_stop(pid, SIGTRAP);
	put(pid, 0x90);
#ifdef RIGHT
	while (another_trap_is_pending(pid)) {
		request(PT_CONTINUE, pid, 0);
		await_stop(pid, SIGTRAP);
	}
#endif
	request(PT_DETACH, pid, 0);
	status = await(pid);
	if (WIFSIGNALED(status))
		errx(1, "the target was ended by %s", strsignal(WTERMSIG(status)));
	return (0);
}
