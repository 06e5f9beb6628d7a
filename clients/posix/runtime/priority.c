/* Calls that name a process to the host's scheduler: only the caller has a number that means the same there. */
#define _GNU_SOURCE
#include <sched.h>
#include <sys/resource.h>
#include "freebsd.h"
#include "runtime.h"

/* Whether the number is the caller's; else -1 with ESRCH. */
static int is_own(pid_t pid)
{
	if (pid == 0 || pid == own_pid)
		return 1;
	tracehost_say("the priority and policy of process %d aren't in the model (ESRCH)", pid);
	errno = ESRCH;
	return 0;
}

int tracehost_sched_getparam(pid_t pid, struct sched_param *to) { return is_own(pid) ? sched_getparam(0, to) : -1; }
int tracehost_sched_setparam(pid_t pid, const struct sched_param *new) { return is_own(pid) ? sched_setparam(0, new) : -1; }
int tracehost_sched_getscheduler(pid_t pid) { return is_own(pid) ? sched_getscheduler(0) : -1; }

int tracehost_sched_setscheduler(pid_t pid, int policy, const struct sched_param *new)
{
	return is_own(pid) ? sched_setscheduler(0, policy, new) : -1;
}

int tracehost_sched_rr_get_interval(pid_t pid, struct timespec *to) { return is_own(pid) ? sched_rr_get_interval(0, to) : -1; }

int tracehost_getpriority(int which, id_t who)
{
	return which != PRIO_PROCESS || is_own((pid_t)who) ? getpriority(which, which == PRIO_PROCESS ? 0 : who) : -1;
}

int tracehost_setpriority(int which, id_t who, int priority)
{
	if (which == PRIO_PROCESS && is_own((pid_t)who))
		return setpriority(PRIO_PROCESS, 0, priority);
	if (which != PRIO_PROCESS)
		errno = EPERM; /* other processes of the host's would have it too */
	return -1;
}
