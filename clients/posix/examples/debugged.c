/* What debugger.cpp debugs: a loop of calls, a fork, two threads or a recursion, by its argument. Plain FreeBSD C. */
#include <sys/wait.h>
#include <pthread.h>
#include <signal.h>
#include <stdlib.h>
#include <string.h>
#include <unistd.h>

static volatile int handled;
volatile int counter;

static void on_signal(int sig) { handled += sig == SIGUSR1; }

__attribute__((noinline)) int
work(int i)
{
	counter = i;
	if (i % 10 == 3)
		getppid();
	return (i * i + 1);
}

__attribute__((noinline)) int outer(int i) { return (work(i) + 1); }

__attribute__((noinline)) int
factorial(int n)
{
	return (n < 2 ? 1 : n * factorial(n - 1));
}

static int
loop(int times)
{
	int i, sum = 0, wanted = 0;

	signal(SIGUSR1, on_signal);
	for (i = 0; i < times; i++) {
		sum += outer(i);
		wanted += i * i + 2;
		if (i % 25 == 7)
			kill(getpid(), SIGUSR1);
	}
	return (sum != wanted || handled != (times + 17) / 25);
}

static int
forks(void)
{
	int status;
	pid_t pid = fork();

	if (pid == 0)
		_exit(work(2));
	return (waitpid(pid, &status, 0) == pid && status == 5 << 8 && work(1) == 2 ? 0 : 1);
}

static void *
visit(void *sum)
{
	int i;

	for (i = 0; i < 5; i++)
		*(int *)sum += work(i);
	return (NULL);
}

static int
threads(void)
{
	int sums[2] = { 0, 0 };
	pthread_t thread;

	if (pthread_create(&thread, NULL, visit, &sums[1]) != 0)
		return (2);
	visit(&sums[0]);
	pthread_join(thread, NULL);
	return (sums[0] != 35 || sums[1] != 35);
}

int
main(int argc, char **argv)
{

	if (argc == 3 && strcmp(argv[1], "loop") == 0)
		return (loop(atoi(argv[2])));
	if (argc == 2 && strcmp(argv[1], "forks") == 0)
		return (forks());
	if (argc == 2 && strcmp(argv[1], "threads") == 0)
		return (threads());
	if (argc == 2 && strcmp(argv[1], "factorial") == 0)
		return (factorial(5) != 120);
	return (3);
}
