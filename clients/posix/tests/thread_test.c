/* Threads of a traced process: their events, lists, suspension. */
#include <pthread_np.h>
#include "cases.h"

static void *
end(void *arg)
{

	return (arg);
}

static void *
raise_usr1(void *arg)
{

	raise(SIGUSR1);
	return (arg);
}

static void *
wait_long(void *arg)
{

	for (;;)
		pause();
	return (arg);
}

static void
make_thread(void)
{
	pthread_t t;

	CHILD_REQUIRE(pthread_create(&t, NULL, end, NULL) == 0);
	CHILD_REQUIRE(pthread_join(t, NULL) == 0);
	_exit(1);
}

/* Goes on until a stop with this flag. */
static struct ptrace_lwpinfo
until(pid_t pid, int flag)
{
	struct ptrace_lwpinfo pl;
	int status;

	for (;;) {
		ATF_REQUIRE_EQ(waitpid(pid, &status, 0), pid);
		ATF_REQUIRE_MSG(WIFSTOPPED(status), "status %#x", status);
		pl = information(pid);
		if (pl.pl_flags & flag)
			return (pl);
		go_on(pid);
	}
}

ATF_TC_WITHOUT_HEAD(lwp_events);
ATF_TC_BODY(lwp_events, tc)
{
	pid_t pid = traced_child(make_thread);
	struct ptrace_lwpinfo pl;
	lwpid_t first, second;

	first = information(pid).pl_lwpid;
	ATF_REQUIRE_EQ(ptrace(PT_LWP_EVENTS, pid, NULL, 1), 0);
	go_on(pid);
	pl = until(pid, PL_FLAG_BORN);
	second = pl.pl_lwpid;
	ATF_REQUIRE(second != first && second != 0);
	go_on(pid);
	pl = until(pid, PL_FLAG_EXITED);
	ATF_REQUIRE_EQ(pl.pl_lwpid, second);
	go_on(pid);
	exited(pid, 1);
}

ATF_TC_WITHOUT_HEAD(no_lwp_events);
ATF_TC_BODY(no_lwp_events, tc)
{
	pid_t pid = traced_child(make_thread);

	go_on(pid);
	exited(pid, 1);
}

ATF_TC_WITHOUT_HEAD(new_thread_pl_syscall_code);
ATF_TC_BODY(new_thread_pl_syscall_code, tc)
{
	pid_t pid = traced_child(make_thread);
	struct ptrace_lwpinfo pl;

	ATF_REQUIRE_EQ(ptrace(PT_LWP_EVENTS, pid, NULL, 1), 0);
	go_on(pid);
	pl = until(pid, PL_FLAG_BORN);
	ATF_REQUIRE(pl.pl_flags & PL_FLAG_SCX);
	ATF_REQUIRE_EQ(pl.pl_syscall_code, 455);
	resume(PT_DETACH, pid, 0);
	exited(pid, 1);
}

static void
three_threads(void)
{
	pthread_t t[3];
	int i;

	for (i = 0; i < 3; i++)
		CHILD_REQUIRE(pthread_create(&t[i], NULL, wait_long, NULL) == 0);
	raise(SIGUSR1);
	_exit(1);
}

ATF_TC_WITHOUT_HEAD(lists_of_lwps);
ATF_TC_BODY(lists_of_lwps, tc)
{
	pid_t pid = traced_child(three_threads);
	lwpid_t all[8], two[2];
	int i, j;

	ATF_REQUIRE_EQ(ptrace(PT_GETNUMLWPS, pid, NULL, 0), 1);
	go_on(pid);
	stopped_by(pid, SIGUSR1);
	ATF_REQUIRE_EQ(ptrace(PT_GETNUMLWPS, pid, NULL, 0), 4);
	ATF_REQUIRE_EQ(ptrace(PT_GETLWPLIST, pid, (caddr_t)all, 8), 4);
	for (i = 0; i < 4; i++)
		for (j = 0; j < i; j++)
			ATF_REQUIRE(all[i] != all[j]);
	ATF_REQUIRE_EQ(ptrace(PT_GETLWPLIST, pid, (caddr_t)two, 2), 2);
	ATF_REQUIRE_ERRNO(EINVAL, ptrace(PT_GETLWPLIST, pid, (caddr_t)two, 0) == -1);
	go_on(pid);
	exited(pid, 1);
}

/* Of a process's LWPs one reports the stop. */
ATF_TC_WITHOUT_HEAD(information_of_each_lwp);
ATF_TC_BODY(information_of_each_lwp, tc)
{
	pid_t pid = traced_child(three_threads);
	struct ptrace_lwpinfo pl;
	lwpid_t all[8];
	int i, reporting = 0;

	go_on(pid);
	stopped_by(pid, SIGUSR1);
	ATF_REQUIRE_EQ(ptrace(PT_GETLWPLIST, pid, (caddr_t)all, 8), 4);
	for (i = 0; i < 4; i++) {
		ATF_REQUIRE_EQ(ptrace(PT_LWPINFO, all[i], (caddr_t)&pl, sizeof(pl)), 0);
		ATF_REQUIRE_EQ(pl.pl_lwpid, all[i]);
		reporting += pl.pl_event == PL_EVENT_SIGNAL;
	}
	ATF_REQUIRE_EQ(reporting, 1);
	ATF_REQUIRE_ERRNO(ESRCH, ptrace(PT_LWPINFO, 9999999, (caddr_t)&pl, sizeof(pl)) == -1);
	ATF_REQUIRE_ERRNO(EINVAL, ptrace(PT_LWPINFO, pid, (caddr_t)&pl, sizeof(pl) + 1) == -1);
	ATF_REQUIRE_EQ(ptrace(PT_KILL, pid, NULL, 0), 0);
	killed(pid, SIGKILL);
}

static void
thread_raises(void)
{
	pthread_t t;

	CHILD_REQUIRE(pthread_create(&t, NULL, raise_usr1, NULL) == 0);
	CHILD_REQUIRE(pthread_join(t, NULL) == 0);
	_exit(1);
}

/* A suspended LWP waits until it is resumed, and the others of its process go on. */
ATF_TC_WITHOUT_HEAD(suspend_and_resume);
ATF_TC_BODY(suspend_and_resume, tc)
{
	pid_t pid = traced_child(thread_raises);
	struct ptrace_lwpinfo pl;
	lwpid_t born;
	int status;

	ATF_REQUIRE_EQ(ptrace(PT_LWP_EVENTS, pid, NULL, 1), 0);
	go_on(pid);
	pl = until(pid, PL_FLAG_BORN);
	born = pl.pl_lwpid;
	ATF_REQUIRE_EQ(ptrace(PT_SUSPEND, born, NULL, 0), 0);
	go_on(pid);
	usleep(1000);
	ATF_REQUIRE_EQ(waitpid(pid, &status, WNOHANG), 0);
	ATF_REQUIRE_EQ(kill(pid, SIGUSR2), 0);
	stopped_by(pid, SIGUSR2);
	ATF_REQUIRE(information(pid).pl_lwpid != born);
	ATF_REQUIRE_EQ(ptrace(PT_RESUME, born, NULL, 0), 0);
	go_on(pid);
	stopped_by(pid, SIGUSR1);
	ATF_REQUIRE_EQ(information(pid).pl_lwpid, born);
	resume(PT_DETACH, pid, 0);
	exited(pid, 1);
}

ATF_TC_WITHOUT_HEAD(PT_KILL_with_threads);
ATF_TC_BODY(PT_KILL_with_threads, tc)
{
	pid_t pid = traced_child(three_threads);

	go_on(pid);
	stopped_by(pid, SIGUSR1);
	ATF_REQUIRE_EQ(ptrace(PT_KILL, pid, NULL, 0), 0);
	killed(pid, SIGKILL);
	no_child();
}

static void *
exec_there(void *arg)
{

	execlp("true", "true", (char *)NULL);
	return (arg);
}

static void
exec_in_a_thread(void)
{
	pthread_t t;

	CHILD_REQUIRE(pthread_create(&t, NULL, exec_there, NULL) == 0);
	for (;;)
		pause();
}

/* An exec leaves one LWP. */
ATF_TC_WITHOUT_HEAD(exec_with_threads);
ATF_TC_BODY(exec_with_threads, tc)
{
	pid_t pid = traced_child(exec_in_a_thread);

	go_on(pid);
	until(pid, PL_FLAG_EXEC);
	ATF_REQUIRE_EQ(ptrace(PT_GETNUMLWPS, pid, NULL, 0), 1);
	go_on(pid);
	exited(pid, 0);
}

static void
both_raise(void)
{
	pthread_t t;

	CHILD_REQUIRE(pthread_create(&t, NULL, raise_usr1, NULL) == 0);
	raise(SIGUSR1);
	CHILD_REQUIRE(pthread_join(t, NULL) == 0);
	_exit(1);
}

/* Two threads' stops are both reported. */
ATF_TC_WITHOUT_HEAD(two_stops);
ATF_TC_BODY(two_stops, tc)
{
	pid_t pid = traced_child(both_raise);
	lwpid_t one, two;

	go_on(pid);
	stopped_by(pid, SIGUSR1);
	one = information(pid).pl_lwpid;
	go_on(pid);
	stopped_by(pid, SIGUSR1);
	two = information(pid).pl_lwpid;
	ATF_REQUIRE(one != two);
	go_on(pid);
	exited(pid, 1);
}

static volatile int tids[2];

static void *
note_tid(void *arg)
{

	tids[1] = pthread_getthreadid_np();
	return (arg);
}

ATF_TC_WITHOUT_HEAD(numbers_of_threads);
ATF_TC_BODY(numbers_of_threads, tc)
{
	pthread_t t;

	tids[0] = pthread_getthreadid_np();
	ATF_REQUIRE_EQ(pthread_create(&t, NULL, note_tid, NULL), 0);
	ATF_REQUIRE_EQ(pthread_join(t, NULL), 0);
	ATF_REQUIRE(tids[0] != tids[1] && tids[1] != 0);
}

ATF_TP_ADD_TCS(tp)
{

	ATF_TP_ADD_TC(tp, lwp_events);
	ATF_TP_ADD_TC(tp, no_lwp_events);
	ATF_TP_ADD_TC(tp, new_thread_pl_syscall_code);
	ATF_TP_ADD_TC(tp, lists_of_lwps);
	ATF_TP_ADD_TC(tp, information_of_each_lwp);
	ATF_TP_ADD_TC(tp, suspend_and_resume);
	ATF_TP_ADD_TC(tp, PT_KILL_with_threads);
	ATF_TP_ADD_TC(tp, exec_with_threads);
	ATF_TP_ADD_TC(tp, two_stops);
	ATF_TP_ADD_TC(tp, numbers_of_threads);
	return (atf_no_error());
}
