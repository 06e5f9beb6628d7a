/* 250 children, one after the other.
 * prints: ok */
#include <unistd.h>
#include <sys/wait.h>
#include <stdio.h>
int main(void)
{
	int i;
	for (i = 0; i < 250; i++) {
		pid_t p = fork();
		if (p == 0)
			_exit(0);
		int s;
		if (waitpid(p, &s, 0) != p)
			return 2;
	}
	printf("ok\n");
	return 0;
}
