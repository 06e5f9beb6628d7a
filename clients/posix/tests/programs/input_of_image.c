/* An image that an exec has made reads a pipe that is its standard input, and that is written later.
 * prints: 5
 * schedules: 20 */
#include <sys/wait.h>
#include <stdio.h>
#include <unistd.h>

int main(int argc, char **argv)
{
	int ends[2], status;
	char byte = 0;

	if (argc > 1)
		return read(0, &byte, 1) == 1 ? byte : 1;
	if (pipe(ends) != 0)
		return 1;
	pid_t pid = fork();
	if (pid == 0) {
		dup2(ends[0], 0);
		close(ends[0]);
		close(ends[1]);
		execl("/proc/self/exe", argv[0], "reads", (char *)NULL);
		_exit(99);
	}
	close(ends[0]);
	sleep(1);
	if (write(ends[1], "\5", 1) != 1)
		return 1;
	waitpid(pid, &status, 0);
	printf("%d\n", WEXITSTATUS(status));
	return 0;
}
