/* A handler calls exit(3) while the process is in exit(3).
 *
 * schedules: 40
 */
#include <signal.h>
#include <stdlib.h>
#include <unistd.h>

static void leave(int number)
{
	(void)number;
	exit(0);
}

int main(void)
{
	signal(SIGALRM, leave);
	ualarm(1000, 0);
	usleep(1000);
	return 0;
}
