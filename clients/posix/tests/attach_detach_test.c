/* Tracing begins and ends: PT_TRACE_ME, PT_ATTACH, PT_DETACH, and the order in which an end is seen. */
#include "debugger.h"

static void exit_with_1(void) { _exit(1); }

/* A parent that traces its child sees one exit. */
ATF_TC_WITHOUT_HEAD(parent_wait_after_trace_me);
ATF_TC_BODY(parent_wait_after_trace_me, tc)
{
	pid_t pid = start_traced(exit_with_1);

	ATF_REQUIRE(go_on(pid));
	ATF_REQUIRE(wait_exit(pid, 1));
	ATF_REQUIRE_ERRNO(ECHILD, waitpid(pid, NULL, 0) == -1);
}

static int gate[2];

static void
exit_when_released(void)
{
	close(gate[1]);
	CHILD_REQUIRE(await_release(gate[0]));
	_exit(1);
}

/* The same if the parent has attached later. */
ATF_TC_WITHOUT_HEAD(parent_wait_after_attach);
ATF_TC_BODY(parent_wait_after_attach, tc)
{
	pid_t pid;

	ATF_REQUIRE(pipe(gate) == 0);
	pid = start(exit_when_released);
	ATF_REQUIRE(attach(pid));
	ATF_REQUIRE(go_on(pid));
	release(gate[1]);
	ATF_REQUIRE(wait_exit(pid, 1));
	ATF_REQUIRE_ERRNO(ECHILD, waitpid(pid, NULL, 0) == -1);
}

static pid_t target;
static int attached[2], go_and_wait[2];

static void
debug_target(void)
{
	close(attached[0]);
	close(go_and_wait[1]);
	close(gate[1]);
	CHILD_REQUIRE(attach(target));
	CHILD_REQUIRE(go_on(target));
	release(attached[1]);
	CHILD_REQUIRE(await_release(go_and_wait[0]));
	CHILD_REQUIRE(wait_exit(target, 1));
}

/* A parent sees the exit of its child only after the child's debugger has seen it. */
static void
parent_sees_it_second(pid_t debugger)
{
	int status;

	ATF_REQUIRE(await_release(attached[0]));
	release(gate[1]);
	/* The target may have ended, or be about to. */
	ATF_REQUIRE(waitpid(target, &status, WNOHANG) == 0);
	release(go_and_wait[1]);
	if (debugger != -1)
		ATF_REQUIRE(wait_exit(debugger, 0));
	ATF_REQUIRE(wait_exit(target, 1));
	ATF_REQUIRE(no_child_left());
}

static void
open_gates(void)
{
	ATF_REQUIRE(pipe(gate) == 0 && pipe(attached) == 0 && pipe(go_and_wait) == 0);
}

ATF_TC_WITHOUT_HEAD(parent_sees_exit_after_child_debugger);
ATF_TC_BODY(parent_sees_exit_after_child_debugger, tc)
{
	open_gates();
	target = start(exit_when_released);
	parent_sees_it_second(start(debug_target));
}

static void
fork_debugger(void)
{
	pid_t pid = fork();

	CHILD_REQUIRE(pid != -1);
	if (pid == 0)
		debug_target();
}

/* The same with a debugger that the parent has never seen. */
ATF_TC_WITHOUT_HEAD(parent_sees_exit_after_unrelated_debugger);
ATF_TC_BODY(parent_sees_exit_after_unrelated_debugger, tc)
{
	open_gates();
	target = start(exit_when_released);
	ATF_REQUIRE(wait_exit(start(fork_debugger), 0));
	parent_sees_it_second(-1);
}

static int reported[2];

static void
leave_an_orphan(void)
{
	pid_t pid = fork();

	CHILD_REQUIRE(pid != -1);
	if (pid == 0) {
		pid = getpid();
		CHILD_REQUIRE(write(reported[1], &pid, sizeof(pid)) == sizeof(pid));
		exit_when_released();
	}
}

/* An orphan can be traced, and its exit is seen once. */
ATF_TC_WITHOUT_HEAD(parent_exits_before_child);
ATF_TC_BODY(parent_exits_before_child, tc)
{
	pid_t orphan;

	ATF_REQUIRE(pipe(gate) == 0 && pipe(reported) == 0);
	ATF_REQUIRE(wait_exit(start(leave_an_orphan), 0));
	ATF_REQUIRE(read(reported[0], &orphan, sizeof(orphan)) == sizeof(orphan));
	ATF_REQUIRE(attach(orphan));
	ATF_REQUIRE(go_on(orphan));
	release(gate[1]);
	ATF_REQUIRE(wait_exit(orphan, 1));
	ATF_REQUIRE(no_child_left());
}

static void
report_parent(void)
{
	pid_t parent;

	CHILD_REQUIRE(await_release(gate[0]));
	parent = getppid();
	CHILD_REQUIRE(write(reported[1], &parent, sizeof(parent)) == sizeof(parent));
	_exit(1);
}

/* getppid(2) gives the parent, and not the debugger. */
ATF_TC_WITHOUT_HEAD(getppid_of_traced);
ATF_TC_BODY(getppid_of_traced, tc)
{
	pid_t debugger, parent;

	open_gates();
	ATF_REQUIRE(pipe(reported) == 0);
	target = start(report_parent);
	debugger = start(debug_target);
	ATF_REQUIRE(await_release(attached[0]));
	release(gate[1]);
	ATF_REQUIRE(read(reported[0], &parent, sizeof(parent)) == sizeof(parent));
	ATF_REQUIRE(parent == getpid());
	release(go_and_wait[1]);
	ATF_REQUIRE(wait_exit(debugger, 0));
	ATF_REQUIRE(wait_exit(target, 1));
}

ATF_TC_WITHOUT_HEAD(attach_to_self);
ATF_TC_BODY(attach_to_self, tc)
{
	ATF_REQUIRE_ERRNO(EINVAL, ptrace(PT_ATTACH, getpid(), NULL, 0) == -1);
}

ATF_TC_WITHOUT_HEAD(attach_to_traced);
ATF_TC_BODY(attach_to_traced, tc)
{
	pid_t pid = start_traced(exit_with_1);

	ATF_REQUIRE_ERRNO(EBUSY, ptrace(PT_ATTACH, pid, NULL, 0) == -1);
	ATF_REQUIRE(go_on(pid));
	ATF_REQUIRE(wait_exit(pid, 1));
}

/* A process's number is unused after the wait. */
ATF_TC_WITHOUT_HEAD(attach_to_unused_number);
ATF_TC_BODY(attach_to_unused_number, tc)
{
	pid_t pid = start(exit_with_1);

	ATF_REQUIRE(wait_exit(pid, 1));
	ATF_REQUIRE_ERRNO(ESRCH, ptrace(PT_ATTACH, pid, NULL, 0) == -1);
	ATF_REQUIRE_ERRNO(ESRCH, ptrace(PT_CONTINUE, pid, (caddr_t)1, 0) == -1);
}

/* After PT_ATTACH and PT_CONTINUE there is no second stop by SIGSTOP. */
ATF_TC_WITHOUT_HEAD(attach_stops_once);
ATF_TC_BODY(attach_stops_once, tc)
{
	pid_t pid;
	int status;

	ATF_REQUIRE(pipe(gate) == 0);
	pid = start(exit_when_released);
	ATF_REQUIRE(attach(pid));
	ATF_REQUIRE(waitpid(pid, &status, WNOHANG) == 0);
	ATF_REQUIRE(go_on(pid));
	ATF_REQUIRE(waitpid(pid, &status, WNOHANG) == 0);
	release(gate[1]);
	ATF_REQUIRE(wait_exit(pid, 1));
}

static void
stop_and_exit(void)
{
	CHILD_REQUIRE(raise(SIGSTOP) == 0);
	_exit(1);
}

/* A process in a job stop is traced as any other, and goes on when its debugger lets it. */
ATF_TC_WITHOUT_HEAD(attach_to_stopped);
ATF_TC_BODY(attach_to_stopped, tc)
{
	pid_t pid = start(stop_and_exit);
	int status;

	ATF_REQUIRE(waitpid(pid, &status, WUNTRACED) == pid);
	ATF_REQUIRE(status == STOPPED_BY(SIGSTOP));
	ATF_REQUIRE(attach(pid));
	ATF_REQUIRE(go_on(pid));
	ATF_REQUIRE(wait_exit(pid, 1));
}

ATF_TC_WITHOUT_HEAD(detach_lets_go_on);
ATF_TC_BODY(detach_lets_go_on, tc)
{
	pid_t pid;

	ATF_REQUIRE(pipe(gate) == 0);
	pid = start(exit_when_released);
	ATF_REQUIRE(attach(pid));
	ATF_REQUIRE(request(PT_DETACH, pid, 0));
	ATF_REQUIRE_ERRNO(EPERM, ptrace(PT_CONTINUE, pid, (caddr_t)1, 0) == -1);
	release(gate[1]);
	ATF_REQUIRE(wait_exit(pid, 1));
	ATF_REQUIRE(no_child_left());
}

/* PT_DETACH delivers a signal, as PT_CONTINUE does. */
ATF_TC_WITHOUT_HEAD(detach_with_signal);
ATF_TC_BODY(detach_with_signal, tc)
{
	pid_t pid = start(sleep_for_ever);

	ATF_REQUIRE(attach(pid));
	ATF_REQUIRE(request(PT_DETACH, pid, SIGTERM));
	ATF_REQUIRE(wait_signaled(pid, SIGTERM));
}

/* A process that is no longer traced obeys a stop signal. */
ATF_TC_WITHOUT_HEAD(detach_with_stop_signal);
ATF_TC_BODY(detach_with_stop_signal, tc)
{
	pid_t pid;
	int status;

	ATF_REQUIRE(pipe(gate) == 0);
	pid = start(exit_when_released);
	ATF_REQUIRE(attach(pid));
	ATF_REQUIRE(request(PT_DETACH, pid, SIGSTOP));
	release(gate[1]);
	ATF_REQUIRE(waitpid(pid, &status, WUNTRACED) == pid);
	ATF_REQUIRE(status == STOPPED_BY(SIGSTOP));
	ATF_REQUIRE(kill(pid, SIGCONT) == 0);
	ATF_REQUIRE(wait_exit(pid, 1));
}

ATF_TC_WITHOUT_HEAD(detach_and_attach_again);
ATF_TC_BODY(detach_and_attach_again, tc)
{
	pid_t pid;

	ATF_REQUIRE(pipe(gate) == 0);
	pid = start(exit_when_released);
	for (int i = 0; i < 3; i++) {
		ATF_REQUIRE(attach(pid));
		ATF_REQUIRE(request(PT_DETACH, pid, 0));
	}
	release(gate[1]);
	ATF_REQUIRE(wait_exit(pid, 1));
}

/* Requests but PT_ATTACH are for processes that one traces oneself, and that are stopped. */
ATF_TC_WITHOUT_HEAD(requests_refused);
ATF_TC_BODY(requests_refused, tc)
{
	pid_t pid = start(sleep_for_ever);

	ATF_REQUIRE_ERRNO(EPERM, ptrace(PT_CONTINUE, pid, (caddr_t)1, 0) == -1);
	ATF_REQUIRE_ERRNO(EPERM, ptrace(PT_DETACH, pid, (caddr_t)1, 0) == -1);
	ATF_REQUIRE_ERRNO(EPERM, ptrace(PT_KILL, pid, (caddr_t)1, 0) == -1);
	ATF_REQUIRE(attach(pid));
	ATF_REQUIRE(go_on(pid));
	ATF_REQUIRE_ERRNO(EBUSY, ptrace(PT_CONTINUE, pid, (caddr_t)1, 0) == -1);
	ATF_REQUIRE_ERRNO(EBUSY, ptrace(PT_DETACH, pid, (caddr_t)1, 0) == -1);
	ATF_REQUIRE(kill(pid, SIGKILL) == 0);
	ATF_REQUIRE(wait_signaled(pid, SIGKILL));
}

static void
continue_target(void)
{
	CHILD_REQUIRE(ptrace(PT_CONTINUE, target, (caddr_t)1, 0) == -1);
	_exit(errno == EBUSY ? 3 : 4);
}

ATF_TC_WITHOUT_HEAD(requests_by_another_process);
ATF_TC_BODY(requests_by_another_process, tc)
{
	target = start(sleep_for_ever);
	ATF_REQUIRE(attach(target));
	ATF_REQUIRE(wait_exit(start(continue_target), 3));
	ATF_REQUIRE(request(PT_KILL, target, 0));
	ATF_REQUIRE(wait_signaled(target, SIGKILL));
}

static void
attach_and_leave(void)
{
	CHILD_REQUIRE(attach(target));
	_exit(0);
}

/* What a debugger hasn't detached is killed at its end. */
ATF_TC_WITHOUT_HEAD(debugger_exit_kills);
ATF_TC_BODY(debugger_exit_kills, tc)
{
	pid_t debugger;

	target = start(sleep_for_ever);
	debugger = start(attach_and_leave);
	ATF_REQUIRE(wait_exit(debugger, 0));
	ATF_REQUIRE(wait_signaled(target, SIGKILL));
}

/* One debugger for several processes, that each stop and end on their own. */
ATF_TC_WITHOUT_HEAD(several_targets);
ATF_TC_BODY(several_targets, tc)
{
	pid_t pids[3];
	int status;

	for (int i = 0; i < 3; i++)
		pids[i] = start(sleep_for_ever);
	for (int i = 0; i < 3; i++)
		ATF_REQUIRE(ptrace(PT_ATTACH, pids[i], NULL, 0) == 0);
	for (int i = 0; i < 3; i++)
		ATF_REQUIRE(wait_stop(pids[i], SIGSTOP));
	ATF_REQUIRE(waitpid(-1, &status, WNOHANG) == 0);
	for (int i = 2; i >= 0; i--) {
		ATF_REQUIRE(request(PT_CONTINUE, pids[i], SIGHUP));
		ATF_REQUIRE(wait_signaled(pids[i], SIGHUP));
	}
	ATF_REQUIRE(no_child_left());
}

ATF_TP_ADD_TCS(tp)
{
	ATF_TP_ADD_TC(tp, parent_wait_after_trace_me);
	ATF_TP_ADD_TC(tp, parent_wait_after_attach);
	ATF_TP_ADD_TC(tp, parent_sees_exit_after_child_debugger);
	ATF_TP_ADD_TC(tp, parent_sees_exit_after_unrelated_debugger);
	ATF_TP_ADD_TC(tp, parent_exits_before_child);
	ATF_TP_ADD_TC(tp, getppid_of_traced);
	ATF_TP_ADD_TC(tp, attach_to_self);
	ATF_TP_ADD_TC(tp, attach_to_traced);
	ATF_TP_ADD_TC(tp, attach_to_unused_number);
	ATF_TP_ADD_TC(tp, attach_stops_once);
	ATF_TP_ADD_TC(tp, attach_to_stopped);
	ATF_TP_ADD_TC(tp, detach_lets_go_on);
	ATF_TP_ADD_TC(tp, detach_with_signal);
	ATF_TP_ADD_TC(tp, detach_with_stop_signal);
	ATF_TP_ADD_TC(tp, detach_and_attach_again);
	ATF_TP_ADD_TC(tp, requests_refused);
	ATF_TP_ADD_TC(tp, requests_by_another_process);
	ATF_TP_ADD_TC(tp, debugger_exit_kills);
	ATF_TP_ADD_TC(tp, several_targets);
	return (atf_no_error());
}
