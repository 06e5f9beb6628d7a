/* Events of LWPs and of exec: PT_LWP_EVENTS, the event mask, PT_LWPINFO and the lists of LWPs. */
#include "debugger.h"
#include <sys/syscall.h>
#include <pthread.h>

static void *return_at_once(void *argument) { return (argument); }

/* A kernel may let pthread_join(3) go on a little before the thread's LWP is gone. */
static void
run_and_join(void)
{
	pthread_t thread;

	CHILD_REQUIRE(pthread_create(&thread, NULL, return_at_once, NULL) == 0);
	CHILD_REQUIRE(pthread_join(thread, NULL) == 0);
	usleep(20000);
}

static void
run_a_thread(void)
{
	run_and_join();
	_exit(1);
}

static void
run_true(void)
{
	execl("/usr/bin/true", "true", (char *)NULL);
	_exit(CHILD_FAILED);
}

static void exit_with_1(void) { _exit(1); }

static int
events_of(pid_t pid)
{
	int events = -1;

	ATF_REQUIRE(ptrace(PT_GET_EVENT_MASK, pid, (caddr_t)&events, sizeof(events)) == 0);
	return (events);
}

/* PT_FOLLOW_FORK and PT_LWP_EVENTS set and clear one event each. */
ATF_TC_WITHOUT_HEAD(event_mask);
ATF_TC_BODY(event_mask, tc)
{
	pid_t pid = start_traced(exit_with_1);

	ATF_REQUIRE(events_of(pid) == PTRACE_EXEC);
	ATF_REQUIRE(ptrace(PT_FOLLOW_FORK, pid, NULL, 1) == 0);
	ATF_REQUIRE(events_of(pid) == (PTRACE_EXEC | PTRACE_FORK));
	ATF_REQUIRE(ptrace(PT_LWP_EVENTS, pid, NULL, 1) == 0);
	ATF_REQUIRE(events_of(pid) == (PTRACE_EXEC | PTRACE_FORK | PTRACE_LWP));
	ATF_REQUIRE(ptrace(PT_FOLLOW_FORK, pid, NULL, 0) == 0);
	ATF_REQUIRE(events_of(pid) == (PTRACE_EXEC | PTRACE_LWP));
	ATF_REQUIRE(ptrace(PT_LWP_EVENTS, pid, NULL, 0) == 0);
	ATF_REQUIRE(events_of(pid) == PTRACE_EXEC);
	ATF_REQUIRE(go_on(pid));
	ATF_REQUIRE(wait_exit(pid, 1));
}

ATF_TC_WITHOUT_HEAD(event_mask_refused);
ATF_TC_BODY(event_mask_refused, tc)
{
	pid_t pid = start_traced(exit_with_1);
	int events = 0x10000;

	ATF_REQUIRE_ERRNO(EINVAL, ptrace(PT_SET_EVENT_MASK, pid, (caddr_t)&events, sizeof(events)) == -1);
	ATF_REQUIRE(events_of(pid) == PTRACE_EXEC);
	ATF_REQUIRE(go_on(pid));
	ATF_REQUIRE(wait_exit(pid, 1));
}

/* A mask that was set is there after a stop and a PT_CONTINUE, and gone with the tracing. */
static void
sleep_and_exit(void)
{
	CHILD_REQUIRE(raise(SIGUSR1) == 0);
	_exit(1);
}

ATF_TC_WITHOUT_HEAD(event_mask_lasts);
ATF_TC_BODY(event_mask_lasts, tc)
{
	pid_t pid = start_traced(sleep_and_exit);

	set_events(pid, PTRACE_LWP | PTRACE_VFORK);
	ATF_REQUIRE(go_on(pid));
	ATF_REQUIRE(wait_stop(pid, SIGUSR1));
	ATF_REQUIRE(events_of(pid) == (PTRACE_LWP | PTRACE_VFORK));
	ATF_REQUIRE(go_on(pid));
	ATF_REQUIRE(wait_exit(pid, 1));
	pid = start(sleep_for_ever);
	ATF_REQUIRE(attach(pid));
	set_events(pid, 0);
	ATF_REQUIRE(request(PT_DETACH, pid, 0));
	ATF_REQUIRE(attach(pid));
	ATF_REQUIRE(events_of(pid) == PTRACE_EXEC);
	ATF_REQUIRE(request(PT_KILL, pid, 0));
	ATF_REQUIRE(wait_signaled(pid, SIGKILL));
}

/* An exec stops with SIGTRAP, as the exit of execve(2). */
ATF_TC_WITHOUT_HEAD(exec_stop);
ATF_TC_BODY(exec_stop, tc)
{
	pid_t pid = start_traced(run_true);

	ATF_REQUIRE(go_on(pid));
	ATF_REQUIRE(wait_stop(pid, SIGTRAP));
	ATF_REQUIRE(flags(pid) & PL_FLAG_EXEC);
	ATF_REQUIRE(flags(pid) & PL_FLAG_SCX);
	ATF_REQUIRE(info(pid).pl_event == PL_EVENT_SIGNAL);
	ATF_REQUIRE(info(pid).pl_syscall_code == SYS_execve);
	ATF_REQUIRE(go_on(pid));
	ATF_REQUIRE(wait_exit(pid, 0));
}

/* Only PT_TRACE_ME is needed: the first stop is that of the exec. */
ATF_TC_WITHOUT_HEAD(exec_stop_is_the_first);
ATF_TC_BODY(exec_stop_is_the_first, tc)
{
	pid_t pid = fork();

	ATF_REQUIRE(pid != -1);
	if (pid == 0) {
		CHILD_REQUIRE(ptrace(PT_TRACE_ME, 0, NULL, 0) == 0);
		run_true();
	}
	ATF_REQUIRE(wait_stop(pid, SIGTRAP));
	ATF_REQUIRE(flags(pid) & PL_FLAG_EXEC);
	ATF_REQUIRE(request(PT_DETACH, pid, 0));
	ATF_REQUIRE(wait_exit(pid, 0));
}

ATF_TC_WITHOUT_HEAD(exec_without_event);
ATF_TC_BODY(exec_without_event, tc)
{
	pid_t pid = start_traced(run_true);

	set_events(pid, 0);
	ATF_REQUIRE(go_on(pid));
	ATF_REQUIRE(wait_exit(pid, 0));
}

/* The birth of a thread stops it, and its end. */
ATF_TC_WITHOUT_HEAD(lwp_events);
ATF_TC_BODY(lwp_events, tc)
{
	pid_t pid = start_traced(run_a_thread);
	lwpid_t first = info(pid).pl_lwpid, second;

	ATF_REQUIRE(ptrace(PT_LWP_EVENTS, pid, NULL, 1) == 0);
	ATF_REQUIRE(go_on(pid));
	ATF_REQUIRE(wait_stop(pid, SIGTRAP));
	ATF_REQUIRE((flags(pid) & (PL_FLAG_BORN | PL_FLAG_SCX)) == (PL_FLAG_BORN | PL_FLAG_SCX));
	second = info(pid).pl_lwpid;
	ATF_REQUIRE(second != first);
	ATF_REQUIRE(go_on(pid));
	ATF_REQUIRE(wait_stop(pid, SIGTRAP));
	ATF_REQUIRE((flags(pid) & (PL_FLAG_EXITED | PL_FLAG_SCE)) == PL_FLAG_EXITED);
	ATF_REQUIRE(info(pid).pl_lwpid == second);
	ATF_REQUIRE(go_on(pid));
	ATF_REQUIRE(wait_exit(pid, 1));
}

/* Without the event threads come and go. */
ATF_TC_WITHOUT_HEAD(lwp_events_off);
ATF_TC_BODY(lwp_events_off, tc)
{
	pid_t pid = start_traced(run_a_thread);

	ATF_REQUIRE(ptrace(PT_LWP_EVENTS, pid, NULL, 1) == 0);
	ATF_REQUIRE(ptrace(PT_LWP_EVENTS, pid, NULL, 0) == 0);
	ATF_REQUIRE(go_on(pid));
	ATF_REQUIRE(wait_exit(pid, 1));
}

/* The lists of LWPs at a thread's birth, at its end, and after it. */
static void
run_a_thread_and_stop(void)
{
	run_and_join();
	CHILD_REQUIRE(raise(SIGUSR1) == 0);
	_exit(1);
}

static int
lwps_of(pid_t pid, lwpid_t *lwps, int room)
{
	return (ptrace(PT_GETLWPLIST, pid, (caddr_t)lwps, room));
}

ATF_TC_WITHOUT_HEAD(lwp_lists);
ATF_TC_BODY(lwp_lists, tc)
{
	pid_t pid = start_traced(run_a_thread_and_stop);
	lwpid_t lwps[8], first = info(pid).pl_lwpid, second;

	ATF_REQUIRE(ptrace(PT_GETNUMLWPS, pid, NULL, 0) == 1);
	ATF_REQUIRE(lwps_of(pid, lwps, 8) == 1 && lwps[0] == first);
	ATF_REQUIRE(ptrace(PT_LWP_EVENTS, pid, NULL, 1) == 0);
	ATF_REQUIRE(go_on(pid));
	ATF_REQUIRE(wait_stop(pid, SIGTRAP));
	second = info(pid).pl_lwpid;
	ATF_REQUIRE(ptrace(PT_GETNUMLWPS, pid, NULL, 0) == 2);
	ATF_REQUIRE(lwps_of(pid, lwps, 8) == 2);
	ATF_REQUIRE((lwps[0] == first && lwps[1] == second) || (lwps[0] == second && lwps[1] == first));
	ATF_REQUIRE(lwps_of(pid, lwps, 1) == 1);
	ATF_REQUIRE(info(first).pl_lwpid == first && info(first).pl_event == PL_EVENT_NONE);
	ATF_REQUIRE(info(second).pl_lwpid == second && info(second).pl_event == PL_EVENT_SIGNAL);
	ATF_REQUIRE(go_on(pid));
	ATF_REQUIRE(wait_stop(pid, SIGTRAP));
	ATF_REQUIRE(flags(pid) & PL_FLAG_EXITED);
	ATF_REQUIRE(go_on(pid));
	ATF_REQUIRE(wait_stop(pid, SIGUSR1));
	ATF_REQUIRE(ptrace(PT_GETNUMLWPS, pid, NULL, 0) == 1);
	ATF_REQUIRE(lwps_of(pid, lwps, 8) == 1 && lwps[0] == first);
	ATF_REQUIRE_ERRNO(ESRCH, ptrace(PT_GETNUMLWPS, second, NULL, 0) == -1);
	ATF_REQUIRE(go_on(pid));
	ATF_REQUIRE(wait_exit(pid, 1));
}

ATF_TC_WITHOUT_HEAD(lwpinfo_size_refused);
ATF_TC_BODY(lwpinfo_size_refused, tc)
{
	struct ptrace_lwpinfo pl;
	pid_t pid = start_traced(exit_with_1);

	ATF_REQUIRE_ERRNO(EINVAL, ptrace(PT_LWPINFO, pid, (caddr_t)&pl, 0) == -1);
	ATF_REQUIRE_ERRNO(EINVAL, ptrace(PT_LWPINFO, pid, (caddr_t)&pl, -1) == -1);
	ATF_REQUIRE_ERRNO(EINVAL, ptrace(PT_LWPINFO, pid, (caddr_t)&pl, sizeof(pl) + 1) == -1);
	memset(&pl, 0, sizeof(pl));
	ATF_REQUIRE(ptrace(PT_LWPINFO, pid, (caddr_t)&pl, sizeof(pl.pl_lwpid)) == 0);
	ATF_REQUIRE(pl.pl_lwpid == info(pid).pl_lwpid && pl.pl_event == 0);
	ATF_REQUIRE(go_on(pid));
	ATF_REQUIRE(wait_exit(pid, 1));
}

static void *
exec_in_a_thread(void *argument)
{
	run_true();
	return (argument);
}

static void
exec_from_a_thread(void)
{
	pthread_t thread;

	CHILD_REQUIRE(pthread_create(&thread, NULL, exec_in_a_thread, NULL) == 0);
	sleep_for_ever();
}

/* An exec ends the other threads, and each of these reports its end before the exec does. */
ATF_TC_WITHOUT_HEAD(lwp_events_exec);
ATF_TC_BODY(lwp_events_exec, tc)
{
	pid_t pid = start_traced(exec_from_a_thread);
	lwpid_t first = info(pid).pl_lwpid, second;

	ATF_REQUIRE(ptrace(PT_LWP_EVENTS, pid, NULL, 1) == 0);
	ATF_REQUIRE(go_on(pid));
	ATF_REQUIRE(wait_stop(pid, SIGTRAP));
	ATF_REQUIRE(flags(pid) & PL_FLAG_BORN);
	second = info(pid).pl_lwpid;
	ATF_REQUIRE(go_on(pid));
	ATF_REQUIRE(wait_stop(pid, SIGTRAP));
	ATF_REQUIRE(flags(pid) & PL_FLAG_EXITED);
	ATF_REQUIRE(info(pid).pl_lwpid == first);
	ATF_REQUIRE(go_on(pid));
	ATF_REQUIRE(wait_stop(pid, SIGTRAP));
	ATF_REQUIRE(flags(pid) & PL_FLAG_EXEC);
	ATF_REQUIRE(info(pid).pl_lwpid == second);
	ATF_REQUIRE(go_on(pid));
	ATF_REQUIRE(wait_exit(pid, 0));
}

/* An exec of a process with threads leaves one LWP. */
ATF_TC_WITHOUT_HEAD(exec_leaves_one_lwp);
ATF_TC_BODY(exec_leaves_one_lwp, tc)
{
	pid_t pid = start_traced(exec_from_a_thread);

	ATF_REQUIRE(go_on(pid));
	ATF_REQUIRE(wait_stop(pid, SIGTRAP));
	ATF_REQUIRE(flags(pid) & PL_FLAG_EXEC);
	ATF_REQUIRE(ptrace(PT_GETNUMLWPS, pid, NULL, 0) == 1);
	ATF_REQUIRE(go_on(pid));
	ATF_REQUIRE(wait_exit(pid, 0));
}

ATF_TP_ADD_TCS(tp)
{
	ATF_TP_ADD_TC(tp, event_mask);
	ATF_TP_ADD_TC(tp, event_mask_refused);
	ATF_TP_ADD_TC(tp, event_mask_lasts);
	ATF_TP_ADD_TC(tp, exec_stop);
	ATF_TP_ADD_TC(tp, exec_stop_is_the_first);
	ATF_TP_ADD_TC(tp, exec_without_event);
	ATF_TP_ADD_TC(tp, lwp_events);
	ATF_TP_ADD_TC(tp, lwp_events_off);
	ATF_TP_ADD_TC(tp, lwp_lists);
	ATF_TP_ADD_TC(tp, lwpinfo_size_refused);
	ATF_TP_ADD_TC(tp, lwp_events_exec);
	ATF_TP_ADD_TC(tp, exec_leaves_one_lwp);
	return (atf_no_error());
}
