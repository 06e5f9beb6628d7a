/* A line by stdio through a pipe, from a child that sleeps first.
 * prints: hello */
#include <stdio.h>
#include <unistd.h>
#include <sys/wait.h>
#include <fcntl.h>
int main(void)
{
	int p[2];
	pipe(p);
	if (fork() == 0) {
		FILE *f = fdopen(p[1], "w");
		sleep(1);
		fprintf(f, "hello\n");
		fclose(f);
		_exit(0);
	}
	FILE *f = fdopen(p[0], "r");
	close(p[1]);
	char b[20];
	fgets(b, 20, f);
	fputs(b, stdout);
	wait(0);
	return 0;
}
