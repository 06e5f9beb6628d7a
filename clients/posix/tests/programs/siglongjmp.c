/* siglongjmp(3) out of the handler of a fault.
 * prints: jumped
 * schedules: 40 */
#include <setjmp.h>
#include <signal.h>
#include <stdio.h>
#include <unistd.h>
static sigjmp_buf j;
static void h(int s)
{
	siglongjmp(j, 1);
}
int main(void)
{
	signal(SIGSEGV, h);
	if (!sigsetjmp(j, 1)) {
		*(volatile int *)8 = 1;
		return 1;
	}
	puts("jumped");
	return 0;
}
