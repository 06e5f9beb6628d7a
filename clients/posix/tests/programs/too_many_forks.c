/* A user has at most 250 processes.
 * natively: no
 * prints: fork 249 fails errno 11|left 0 of 249 */
#include <unistd.h>
#include <sys/wait.h>
#include <stdio.h>
#include <errno.h>
int main(void)
{
	int i, n = 0;
	for (i = 0; i < 250; i++) {
		pid_t p = fork();
		if (p == 0)
			_exit(0);
		if (p < 0) {
			printf("fork %d fails errno %d\n", i, errno);
			break;
		}
		n++;
	}
	while (wait(0) > 0)
		n--;
	printf("left %d of %d\n", n, i);
	return n;
}
