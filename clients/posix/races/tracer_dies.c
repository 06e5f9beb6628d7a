/*
 * A sandbox with a guard that traces its worker, and a supervisor that replaces the guard.
 *
 * The race: if the first guard ends while it still traces the worker, the worker is killed with it
 * (kern.kill_on_debugger_exit). The guard is asked to end by a signal, and detaches only if it looks in time.
 * The remedy: it blocks the signal while it traces, and detaches before it takes it.
 */
#include "races.h"

static pid_t worker;
static volatile sig_atomic_t asked;

static void
on_term(int sig)
{

	(void)sig;
	asked = 1;
}

static void
guard(int ready)
{
	sigset_t term, old;
	char c = 0;

	sigemptyset(&term);
	sigaddset(&term, SIGTERM);
#ifdef RIGHT
	sigprocmask(SIG_BLOCK, &term, &old);
#else
	(void)old;
#endif
	if (write(ready, &c, 1) != 1)
		_exit(1);
	if (ptrace(PT_ATTACH, worker, NULL, 0) != 0)
		_exit(2);
	await_stop(worker, SIGSTOP);
	signal(SIGTERM, on_term);
#ifdef RIGHT
	while (!asked)
		sigsuspend(&old);
#else
	while (!asked)
		usleep(1000);
#endif
	request(PT_DETACH, worker, 0);
	_exit(0);
}

int
main(void)
{
	int done[2], ready[2], status;
	pid_t first;
	char c;

	if (pipe(done) != 0 || pipe(ready) != 0)
		err(1, "pipe");
	if ((worker = fork()) == 0) {
		close(done[1]);
		_exit(read(done[0], &c, 1) == 0 ? 7 : 1);
	}
	if ((first = fork()) == 0) {
		close(done[1]);
		guard(ready[1]);
	}
	if (read(ready[0], &c, 1) != 1)
		err(1, "read");
	usleep(1000000); /* long enough, as its author thought */
	kill(first, SIGTERM);
	await(first);
	close(done[1]);
	status = await(worker);
	if (!WIFEXITED(status) || WEXITSTATUS(status) != 7)
		errx(1, "status %#x of the worker instead of exit 7", status);
	return (0);
}
