/* sched_getscheduler(2) and its kin, and getpriority(2): of the caller, by 0 and by its number, and of no process.
 *
 * prints: policy|priority
 */
#include <errno.h>
#include <limits.h>
#include <sched.h>
#include <stdio.h>
#include <stdlib.h>
#include <sys/resource.h>
#include <time.h>
#include <unistd.h>

#define CHECK(holds) ((holds) ? (void)0 : (printf("line %d: %s, errno %d\n", __LINE__, #holds, errno), exit(1)))
#define FAILS(call, number) CHECK((errno = 0, (call) == -1 && errno == (number)))

static void policy(pid_t pid)
{
	struct sched_param param = {.sched_priority = -1};
	struct timespec slice = {-1, -1};
	CHECK(sched_getscheduler(pid) == SCHED_OTHER);
	CHECK(sched_getparam(pid, &param) == 0 && param.sched_priority >= sched_get_priority_min(SCHED_OTHER));
	CHECK(sched_setparam(pid, &param) == 0 && sched_setscheduler(pid, SCHED_OTHER, &param) == 0);
	CHECK(sched_rr_get_interval(pid, &slice) == 0 && slice.tv_sec >= 0 && slice.tv_nsec >= 0);
}

int main(void)
{
	struct sched_param param = {0};
	struct timespec slice;
	int own;
	policy(0);
	policy(getpid());
	FAILS(sched_getscheduler(INT_MAX), ESRCH);
	FAILS(sched_getparam(INT_MAX, &param), ESRCH);
	FAILS(sched_setparam(INT_MAX, &param), ESRCH);
	FAILS(sched_setscheduler(INT_MAX, SCHED_OTHER, &param), ESRCH);
	FAILS(sched_rr_get_interval(INT_MAX, &slice), ESRCH);
	FAILS(sched_setscheduler(0, 99, &param), EINVAL);
	puts("policy");
	errno = 0, own = getpriority(PRIO_PROCESS, 0);
	CHECK(errno == 0 && getpriority(PRIO_PROCESS, getpid()) == own);
	CHECK(setpriority(PRIO_PROCESS, getpid(), own + 1) == 0 && getpriority(PRIO_PROCESS, 0) == own + 1);
	FAILS(getpriority(PRIO_PROCESS, INT_MAX), ESRCH);
	FAILS(setpriority(PRIO_PROCESS, INT_MAX, own), ESRCH);
	FAILS(getpriority(99, 0), EINVAL);
	puts("priority");
	return 0;
}
