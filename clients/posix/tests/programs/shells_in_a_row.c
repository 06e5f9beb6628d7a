/* The first process takes up itself behind a shell, five times.
 * natively: no
 * prints: 5 execs of 1000
 * schedules: 10 */
#include <stdio.h>
#include <stdlib.h>
#include <unistd.h>

int main(int argc, char **argv)
{
	char command[4200];
	const int count = argc > 1 ? atoi(argv[1]) : 0;

	if (count == 5) {
		printf("%d execs of %d\n", count, (int)getpid());
		return 0;
	}
	snprintf(command, sizeof command, "exec '%s' %d", argv[0], count + 1);
	execl("/bin/sh", "sh", "-c", command, (char *)NULL);
	return 1;
}
