/* A child becomes sh, which has no runtime.
 * prints: 5 */
#include <sys/types.h>
#include <unistd.h>
#include <stdio.h>
#include <stdlib.h>
#include <sys/wait.h>
int main(void)
{
	pid_t p = fork();
	if (!p) {
		int fds[2];
		pipe(fds);
		dup2(fds[1], 1);
		close(fds[0]);
		close(fds[1]);
		execlp("sh", "sh", "-c", "exit 5", (char *)0);
	}
	int s;
	waitpid(p, &s, 0);
	printf("%d\n", WEXITSTATUS(s));
	return 0;
}
