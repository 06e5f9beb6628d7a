/*
 * A debugger that sleeps in pause(2) until SIGCHLD.
 *
 * The race: the signal may come between the look at `news` and pause(2), and nobody wakes the debugger any more.
 * The remedy: SIGCHLD is blocked but in sigsuspend(2).
 */
#include "races.h"

static volatile sig_atomic_t news;

static void
on_chld(int sig)
{

	(void)sig;
	news = 1;
}

static void
await_news(void)
{
#ifdef RIGHT
	sigset_t chld, old;

	sigemptyset(&chld);
	sigaddset(&chld, SIGCHLD);
	sigprocmask(SIG_BLOCK, &chld, &old);
	while (!news)
		sigsuspend(&old);
	sigprocmask(SIG_SETMASK, &old, NULL);
#else
	while (!news)
		pause();
#endif
	news = 0;
}

int
main(void)
{
	int status, stops = 0;
	pid_t pid;

	signal(SIGCHLD, on_chld);
	pid = start_target(2);
	for (;;) {
		await_news();
		while (waitpid(pid, &status, WNOHANG) > 0) {
			if (WIFEXITED(status))
				return (stops == 3 ? 0 : 1);
			stops++;
			request(PT_CONTINUE, pid, 0);
		}
	}
}
