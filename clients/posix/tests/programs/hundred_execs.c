/* A program that execs itself a hundred times.
 * prints: done */
#include <unistd.h>
#include <stdio.h>
#include <stdlib.h>
int main(int c, char **v)
{
	int n = c > 1 ? atoi(v[1]) : 0;
	char b[20];
	if (n >= 100) {
		puts("done");
		return 0;
	}
	sprintf(b, "%d", n + 1);
	execl(v[0], v[0], b, (char *)0);
	return 3;
}
