/* ppoll(2) and pselect(2) are ended by a signal that only they don't block, be it sent before or meanwhile.
 * prints: -1 -1 1 1 3
 * schedules: 40 */
#define _GNU_SOURCE
#include <poll.h>
#include <signal.h>
#include <stdio.h>
#include <sys/select.h>
#include <sys/wait.h>
#include <unistd.h>
static volatile int count;
static void handle(int number)
{
	count++;
}
int main(void)
{
	sigset_t one, old;
	int ends[2];
	struct pollfd wanted = {.events = POLLIN};
	struct timespec none = {0, 0};

	pipe(ends);
	wanted.fd = ends[0];
	signal(SIGUSR1, handle);
	sigemptyset(&one);
	sigaddset(&one, SIGUSR1);
	sigprocmask(SIG_BLOCK, &one, &old);
	raise(SIGUSR1);
	int polled = ppoll(&wanted, 1, NULL, &old);
	if (fork() == 0) {
		kill(getppid(), SIGUSR1);
		_exit(0);
	}
	fd_set in;
	FD_ZERO(&in);
	FD_SET(ends[0], &in);
	int selected = pselect(ends[0] + 1, &in, NULL, NULL, NULL, &old);
	wait(NULL);
	write(ends[1], "x", 1);
	int ready = ppoll(&wanted, 1, &none, &old);
	FD_SET(ends[0], &in);
	int ready_too = pselect(ends[0] + 1, &in, NULL, NULL, &none, NULL);
	raise(SIGUSR1);
	sigprocmask(SIG_SETMASK, &old, NULL);
	printf("%d %d %d %d %d\n", polled, selected, ready, ready_too, count);
	return 0;
}
