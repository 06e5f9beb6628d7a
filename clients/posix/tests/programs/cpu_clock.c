/* The clock of the caller's processor time, and the resolution of clocks.
 *
 * prints: 0 0 runs 1
 */
#include <stdio.h>
#include <time.h>
#include <unistd.h>

int main(void)
{
	clockid_t own, by_number;
	struct timespec time, step;
	int first = clock_getcpuclockid(0, &own), second = clock_getcpuclockid(getpid(), &by_number);
	int runs = clock_gettime(by_number, &time) == 0 && (time.tv_sec > 0 || time.tv_nsec > 0);
	int fine = clock_getres(CLOCK_REALTIME, &step) == 0 && step.tv_sec == 0 && step.tv_nsec > 0 && step.tv_nsec <= 10000000;
	printf("%d %d %s %d\n", first, second, runs ? "runs" : "stands", fine);
	return 0;
}
