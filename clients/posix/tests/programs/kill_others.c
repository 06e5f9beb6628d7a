/* kill(2) of all others, and of process 1, by a process that may see neither.
 * natively: no
 * prints: kill -1: -1 3|kill 1: -1 3 */
#include <signal.h>
#include <stdio.h>
#include <errno.h>
#include <unistd.h>
int main(void)
{
	int r = kill(-1, 0);
	printf("kill -1: %d %d\n", r, errno);
	r = kill(1, 0);
	printf("kill 1: %d %d\n", r, errno);
	return 0;
}
