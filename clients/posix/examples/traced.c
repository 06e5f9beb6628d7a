/* Something to trace: two threads, a child by fork and one by vfork, signals, and a pipe. Exits with 0. */
#include <sys/types.h>
#include <sys/wait.h>
#include <pthread.h>
#include <signal.h>
#include <unistd.h>

static volatile sig_atomic_t got;

static void
note(int sig)
{

	got = sig;
}

static void *
work(void *arg)
{

	getppid();
	raise(SIGUSR2);
	return (arg);
}

int
main(void)
{
	pthread_t t;
	int ends[2];
	pid_t one, two;
	char c = 'x';

	signal(SIGUSR1, note);
	signal(SIGUSR2, note);
	if (pipe(ends) != 0 || pthread_create(&t, NULL, work, NULL) != 0)
		return (1);
	if ((one = fork()) == 0) {
		raise(SIGUSR1);
		_exit(write(ends[1], &c, 1) == 1 ? 3 : 4);
	}
	if (read(ends[0], &c, 1) != 1 || c != 'x')
		return (2);
	if ((two = vfork()) == 0)
		_exit(5);
	if (waitpid(one, NULL, 0) != one || waitpid(two, NULL, 0) != two || pthread_join(t, NULL) != 0)
		return (6);
	return (0);
}
