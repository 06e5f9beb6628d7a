/* readv(2), writev(2), getitimer(2), fexecve(2) and quick_exit(3).
 * prints: 7 7 abc defg|100|quick|0 */
#define _GNU_SOURCE
#include <fcntl.h>
#include <stdio.h>
#include <stdlib.h>
#include <string.h>
#include <sys/time.h>
#include <sys/uio.h>
#include <sys/wait.h>
#include <unistd.h>
static void say(void)
{
	write(1, "quick\n", 6);
}
int main(int argc, char **argv)
{
	char first[4] = "", second[8] = "";
	struct iovec out[2] = {{"ab", 2}, {"cdefg", 5}}, in[2] = {{first, 3}, {second, 7}};
	struct itimerval timer = {{0, 0}, {100, 0}};
	int ends[2], status;

	if (argc > 1) {
		at_quick_exit(say);
		quick_exit(0);
	}
	pipe(ends);
	int put = writev(ends[1], out, 2), got = readv(ends[0], in, 2);
	printf("%d %d %s %s\n", put, got, first, second);
	setitimer(ITIMER_REAL, &timer, NULL);
	timer.it_value.tv_sec = 0;
	getitimer(ITIMER_REAL, &timer);
	printf("%d\n", (int)timer.it_value.tv_sec + (timer.it_value.tv_usec > 0));
	fflush(stdout);
	if (fork() == 0) {
		char *words[] = {argv[0], "again", NULL};
		fexecve(open(argv[0], O_RDONLY), words, environ);
		_exit(1);
	}
	wait(&status);
	printf("%d\n", status);
	return 0;
}
