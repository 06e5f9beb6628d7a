/* A program closes all descriptors, one after the other or as a range, and goes on.
 * flags: -DRANGE=0 | -DRANGE=1 */
#define _GNU_SOURCE
#include <stdio.h>
#include <sys/wait.h>
#include <unistd.h>
int main(void)
{
	if (RANGE) {
		close_range(3, ~0U, 0);
	} else {
		for (int i = 3; i < 4096; i++)
			close(i);
		closefrom(3);
	}
	pid_t p = fork();
	if (!p)
		_exit(4);
	int s;
	waitpid(p, &s, 0);
	return WEXITSTATUS(s) != 4;
}
