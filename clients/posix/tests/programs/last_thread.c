/* pthread_exit(3) of the last thread: handlers of atexit(3) run.
 * prints: atexit ran */
#include <pthread.h>
#include <stdlib.h>
#include <unistd.h>
static void a(void)
{
	write(1, "atexit ran\n", 11);
}
int main(void)
{
	atexit(a);
	pthread_exit(0);
}
