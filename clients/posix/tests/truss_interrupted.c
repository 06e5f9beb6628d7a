/*
 * Runs truss on a process of its own, and sends it SIGINT at any time: the process, and the child that it makes, go on.
 *
 *     truss_interrupted TRUSS
 */
#include <sys/types.h>
#include <sys/wait.h>
#include <err.h>
#include <signal.h>
#include <stdio.h>
#include <stdlib.h>
#include <unistd.h>

static void
target(int gate)
{
	pid_t pid;
	int i, status;
	char c;

	for (i = 0; i < 2; i++)
		getppid();
	if ((pid = fork()) == 0)
		_exit(3);
	if (waitpid(pid, &status, 0) != pid || !WIFEXITED(status) || WEXITSTATUS(status) != 3)
		_exit(1);
	_exit(read(gate, &c, 1) == 0 ? 7 : 2);
}

int
main(int argc, char **argv)
{
	int early, gate[2], status;
	pid_t pid, truss;
	char number[16];

	if (argc != 2 || pipe(gate) != 0)
		errx(2, "usage: truss_interrupted TRUSS");
	if ((pid = fork()) == 0) {
		close(gate[1]);
		target(gate[0]);
	}
	snprintf(number, sizeof(number), "%d", (int)pid);
	if ((truss = fork()) == 0) {
		close(gate[1]);
		execl(argv[1], "truss", "-f", "-p", number, (char *)NULL);
		err(1, "%s", argv[1]);
	}
	usleep(1000);
	kill(truss, SIGINT);
	if (waitpid(truss, &status, 0) != truss)
		err(1, "waitpid");
	early = WIFSIGNALED(status) && WTERMSIG(status) == SIGINT; /* before it had a handler */
	if (!early && (!WIFEXITED(status) || WEXITSTATUS(status) != 0))
		errx(1, "status %#x of truss", status);
	close(gate[1]);
	if (waitpid(pid, &status, 0) != pid)
		err(1, "waitpid");
	if (!WIFEXITED(status) || WEXITSTATUS(status) != 7)
		errx(1, "status %#x of the process", status);
	return (0);
}
