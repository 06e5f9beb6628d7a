/* A daemon forks twice. */
#include <unistd.h>
#include <stdio.h>
#include <fcntl.h>
int main(void)
{
	if (fork())
		_exit(0);
	if (fork())
		_exit(0);
	close(0);
	close(1);
	close(2);
	open("/dev/null", O_RDWR);
	dup2(0, 1);
	dup2(0, 2);
	sleep(1);
	_exit(0);
}
