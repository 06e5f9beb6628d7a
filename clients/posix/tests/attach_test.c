/* How tracing begins and ends, and who sees the end of a traced process. */
#include <sys/types.h>
#include <sys/sysctl.h>
#include <sys/user.h>
#include "cases.h"

static struct gate gate;

static void
nothing(void)
{
}

static void
exit_1(void)
{

	_exit(1);
}

static void
wait_at_gate(void)
{

	pass_gate(gate);
	_exit(1);
}

/* Until the process is a zombie, or is gone. */
static void
await_zombie(pid_t pid)
{
	struct kinfo_proc kp;
	int mib[4] = { CTL_KERN, KERN_PROC, KERN_PROC_PID, pid };
	size_t size;

	for (;;) {
		size = sizeof(kp);
		if (sysctl(mib, 4, &kp, &size, NULL, 0) != 0 || kp.ki_stat == SZOMB)
			return;
		usleep(5000);
	}
}

ATF_TC_WITHOUT_HEAD(parent_wait_after_trace_me);
ATF_TC_BODY(parent_wait_after_trace_me, tc)
{
	pid_t pid = traced_child(exit_1);

	go_on(pid);
	exited(pid, 1);
	no_child();
}

ATF_TC_WITHOUT_HEAD(parent_wait_after_attach);
ATF_TC_BODY(parent_wait_after_attach, tc)
{
	pid_t pid;

	gate = new_gate();
	pid = child(wait_at_gate);
	attach(pid);
	go_on(pid);
	open_gate(gate);
	exited(pid, 1);
	no_child();
}

/* The end is reported to the debugger first, and then to the parent. */
ATF_TC_WITHOUT_HEAD(parent_sees_exit_after_child_debugger);
ATF_TC_BODY(parent_sees_exit_after_child_debugger, tc)
{
	pid_t debugger, pid;
	struct gate attached, seen;
	char c = 0;
	int status;

	gate = new_gate();
	pid = child(wait_at_gate);
	attached = new_gate();
	seen = new_gate();
	ATF_REQUIRE((debugger = fork()) != -1);
	if (debugger == 0) {
		close(gate.ends[1]);
		CHILD_REQUIRE(ptrace(PT_ATTACH, pid, NULL, 0) == 0);
		CHILD_REQUIRE(waitpid(pid, &status, 0) == pid && WIFSTOPPED(status));
		CHILD_REQUIRE(ptrace(PT_CONTINUE, pid, (caddr_t)1, 0) == 0);
		CHILD_REQUIRE(write(attached.ends[1], &c, 1) == 1);
		pass_gate(seen);
		CHILD_REQUIRE(waitpid(pid, &status, 0) == pid && WIFEXITED(status) && WEXITSTATUS(status) == 1);
		_exit(0);
	}
	ATF_REQUIRE_EQ(read(attached.ends[0], &c, 1), 1);
	open_gate(gate);
	await_zombie(pid);
	ATF_REQUIRE_EQ(waitpid(pid, &status, WNOHANG), 0);
	open_gate(seen);
	exited(debugger, 0);
	exited(pid, 1);
	no_child();
}

/* The same with a debugger that isn't the parent's child. */
ATF_TC_WITHOUT_HEAD(parent_sees_exit_after_unrelated_debugger);
ATF_TC_BODY(parent_sees_exit_after_unrelated_debugger, tc)
{
	pid_t debugger, pid;
	struct gate attached;
	char c = 0;
	int status;

	gate = new_gate();
	pid = child(wait_at_gate);
	attached = new_gate();
	ATF_REQUIRE((debugger = fork()) != -1);
	if (debugger == 0) {
		close(gate.ends[1]);
		if (fork() != 0)
			_exit(0);
		CHILD_REQUIRE(ptrace(PT_ATTACH, pid, NULL, 0) == 0);
		CHILD_REQUIRE(waitpid(pid, &status, 0) == pid && WIFSTOPPED(status));
		CHILD_REQUIRE(ptrace(PT_CONTINUE, pid, (caddr_t)1, 0) == 0);
		CHILD_REQUIRE(write(attached.ends[1], &c, 1) == 1);
		CHILD_REQUIRE(waitpid(pid, &status, 0) == pid && WIFEXITED(status));
		_exit(0);
	}
	exited(debugger, 0);
	ATF_REQUIRE_EQ(read(attached.ends[0], &c, 1), 1);
	open_gate(gate);
	exited(pid, 1);
	no_child();
}

/* A traced process whose parent ends goes on, and its end is reported to its debugger. */
ATF_TC_WITHOUT_HEAD(parent_exits_before_child);
ATF_TC_BODY(parent_exits_before_child, tc)
{
	pid_t parent, pid;
	int ends[2];

	gate = new_gate();
	ATF_REQUIRE_EQ(pipe(ends), 0);
	ATF_REQUIRE((parent = fork()) != -1);
	if (parent == 0) {
		close(gate.ends[1]); /* a stopped child would keep it open */
		if ((pid = fork()) == 0)
			wait_at_gate();
		CHILD_REQUIRE(write(ends[1], &pid, sizeof(pid)) == sizeof(pid));
		pass_gate(gate);
		_exit(0);
	}
	ATF_REQUIRE_EQ(read(ends[0], &pid, sizeof(pid)), (ssize_t)sizeof(pid));
	attach(pid);
	open_gate(gate);
	exited(parent, 0);
	go_on(pid);
	exited(pid, 1);
	no_child();
}

ATF_TC_WITHOUT_HEAD(getppid_is_unchanged);
ATF_TC_BODY(getppid_is_unchanged, tc)
{
	pid_t debugger, pid, self = getpid();
	struct gate done;
	int status;

	gate = new_gate();
	done = new_gate();
	ATF_REQUIRE((pid = fork()) != -1);
	if (pid == 0) {
		pass_gate(gate);
		CHILD_REQUIRE(getppid() == self);
		_exit(1);
	}
	ATF_REQUIRE((debugger = fork()) != -1);
	if (debugger == 0) {
		CHILD_REQUIRE(ptrace(PT_ATTACH, pid, NULL, 0) == 0);
		CHILD_REQUIRE(waitpid(pid, &status, 0) == pid);
		CHILD_REQUIRE(ptrace(PT_CONTINUE, pid, (caddr_t)1, 0) == 0);
		close(gate.ends[0]);
		close(gate.ends[1]);
		close(done.ends[1]);
		CHILD_REQUIRE(waitpid(pid, &status, 0) == pid && WIFEXITED(status) && WEXITSTATUS(status) == 1);
		_exit(0);
	}
	open_gate(gate);
	open_gate(done);
	exited(debugger, 0);
	exited(pid, 1);
}

ATF_TC_WITHOUT_HEAD(attach_to_itself);
ATF_TC_BODY(attach_to_itself, tc)
{

	ATF_REQUIRE_ERRNO(EINVAL, ptrace(PT_ATTACH, getpid(), NULL, 0) == -1);
}

ATF_TC_WITHOUT_HEAD(attach_to_nobody);
ATF_TC_BODY(attach_to_nobody, tc)
{
	pid_t pid = child(nothing);

	exited(pid, 0);
	ATF_REQUIRE_ERRNO(ESRCH, ptrace(PT_ATTACH, pid, NULL, 0) == -1);
}

ATF_TC_WITHOUT_HEAD(attach_to_a_zombie);
ATF_TC_BODY(attach_to_a_zombie, tc)
{
	pid_t pid = child(exit_1);

	await_zombie(pid);
	ATF_REQUIRE_ERRNO(ESRCH, ptrace(PT_ATTACH, pid, NULL, 0) == -1);
	exited(pid, 1);
}

ATF_TC_WITHOUT_HEAD(attach_to_a_traced_process);
ATF_TC_BODY(attach_to_a_traced_process, tc)
{
	pid_t other, pid = traced_child(exit_1);

	ATF_REQUIRE_ERRNO(EBUSY, ptrace(PT_ATTACH, pid, NULL, 0) == -1);
	ATF_REQUIRE((other = fork()) != -1);
	if (other == 0) {
		CHILD_REQUIRE(ptrace(PT_ATTACH, pid, NULL, 0) == -1 && errno == EBUSY);
		CHILD_REQUIRE(ptrace(PT_CONTINUE, pid, (caddr_t)1, 0) == -1 && errno == EBUSY);
		_exit(0);
	}
	exited(other, 0);
	go_on(pid);
	exited(pid, 1);
}

static void
trace_me_again(void)
{

	CHILD_REQUIRE(ptrace(PT_TRACE_ME, 0, NULL, 0) == -1 && errno == EBUSY);
	_exit(1);
}

ATF_TC_WITHOUT_HEAD(trace_me_twice);
ATF_TC_BODY(trace_me_twice, tc)
{
	pid_t pid = traced_child(trace_me_again);

	go_on(pid);
	exited(pid, 1);
}

static void
attach_to_debugger(void)
{

	CHILD_REQUIRE(ptrace(PT_ATTACH, getppid(), NULL, 0) == -1 && errno == EINVAL);
	_exit(1);
}

ATF_TC_WITHOUT_HEAD(attach_to_the_debugger);
ATF_TC_BODY(attach_to_the_debugger, tc)
{
	pid_t pid = traced_child(attach_to_debugger);

	go_on(pid);
	exited(pid, 1);
}

ATF_TC_WITHOUT_HEAD(requests_of_an_untraced_process);
ATF_TC_BODY(requests_of_an_untraced_process, tc)
{
	pid_t pid;

	gate = new_gate();
	pid = child(wait_at_gate);
	ATF_REQUIRE_ERRNO(EPERM, ptrace(PT_CONTINUE, pid, (caddr_t)1, 0) == -1);
	ATF_REQUIRE_ERRNO(EPERM, ptrace(PT_DETACH, pid, (caddr_t)1, 0) == -1);
	ATF_REQUIRE_ERRNO(EPERM, ptrace(PT_GETNUMLWPS, pid, NULL, 0) == -1);
	ATF_REQUIRE_ERRNO(EPERM, ptrace(PT_KILL, pid, NULL, 0) == -1);
	open_gate(gate);
	exited(pid, 1);
}

ATF_TC_WITHOUT_HEAD(requests_of_a_running_process);
ATF_TC_BODY(requests_of_a_running_process, tc)
{
	pid_t pid;

	gate = new_gate();
	pid = child(wait_at_gate);
	attach(pid);
	go_on(pid);
	ATF_REQUIRE_ERRNO(EBUSY, ptrace(PT_CONTINUE, pid, (caddr_t)1, 0) == -1);
	ATF_REQUIRE_ERRNO(EBUSY, ptrace(PT_DETACH, pid, (caddr_t)1, 0) == -1);
	open_gate(gate);
	exited(pid, 1);
}

ATF_TC_WITHOUT_HEAD(continue_with_no_signal_number);
ATF_TC_BODY(continue_with_no_signal_number, tc)
{
	pid_t pid = traced_child(exit_1);

	ATF_REQUIRE_ERRNO(EINVAL, ptrace(PT_CONTINUE, pid, (caddr_t)1, 1000) == -1);
	ATF_REQUIRE_ERRNO(EINVAL, ptrace(1234, pid, (caddr_t)1, 0) == -1);
	go_on(pid);
	exited(pid, 1);
}

ATF_TC_WITHOUT_HEAD(detach_lets_go_on);
ATF_TC_BODY(detach_lets_go_on, tc)
{
	pid_t pid = traced_child(exit_1);

	resume(PT_DETACH, pid, 0);
	exited(pid, 1);
	no_child();
}

ATF_TC_WITHOUT_HEAD(detach_with_a_signal);
ATF_TC_BODY(detach_with_a_signal, tc)
{
	pid_t pid = traced_child(exit_1);

	resume(PT_DETACH, pid, SIGTERM);
	killed(pid, SIGTERM);
}

ATF_TC_WITHOUT_HEAD(attach_detach_attach);
ATF_TC_BODY(attach_detach_attach, tc)
{
	pid_t pid;
	int i;

	gate = new_gate();
	pid = child(wait_at_gate);
	for (i = 0; i < 3; i++) {
		attach(pid);
		resume(PT_DETACH, pid, 0);
	}
	ATF_REQUIRE_ERRNO(EPERM, ptrace(PT_CONTINUE, pid, (caddr_t)1, 0) == -1);
	open_gate(gate);
	exited(pid, 1);
}

/* A process that job control has stopped goes on when its debugger lets it. */
ATF_TC_WITHOUT_HEAD(attach_to_a_stopped_process);
ATF_TC_BODY(attach_to_a_stopped_process, tc)
{
	pid_t pid;
	int status;

	gate = new_gate();
	pid = child(wait_at_gate);
	ATF_REQUIRE_EQ(kill(pid, SIGSTOP), 0);
	ATF_REQUIRE_EQ(waitpid(pid, &status, WUNTRACED), pid);
	ATF_REQUIRE(WIFSTOPPED(status) && WSTOPSIG(status) == SIGSTOP);
	attach(pid);
	resume(PT_DETACH, pid, 0);
	open_gate(gate);
	exited(pid, 1);
}

/* kern.kill_on_debugger_exit is 1. */
ATF_TC_WITHOUT_HEAD(debugger_exit_ends_the_tracee);
ATF_TC_BODY(debugger_exit_ends_the_tracee, tc)
{
	pid_t debugger, pid;
	int status;

	gate = new_gate();
	pid = child(wait_at_gate);
	ATF_REQUIRE((debugger = fork()) != -1);
	if (debugger == 0) {
		CHILD_REQUIRE(ptrace(PT_ATTACH, pid, NULL, 0) == 0);
		CHILD_REQUIRE(waitpid(pid, &status, 0) == pid);
		_exit(0);
	}
	exited(debugger, 0);
	killed(pid, SIGKILL);
	open_gate(gate);
}

ATF_TP_ADD_TCS(tp)
{

	ATF_TP_ADD_TC(tp, parent_wait_after_trace_me);
	ATF_TP_ADD_TC(tp, parent_wait_after_attach);
	ATF_TP_ADD_TC(tp, parent_sees_exit_after_child_debugger);
	ATF_TP_ADD_TC(tp, parent_sees_exit_after_unrelated_debugger);
	ATF_TP_ADD_TC(tp, parent_exits_before_child);
	ATF_TP_ADD_TC(tp, getppid_is_unchanged);
	ATF_TP_ADD_TC(tp, attach_to_itself);
	ATF_TP_ADD_TC(tp, attach_to_nobody);
	ATF_TP_ADD_TC(tp, attach_to_a_zombie);
	ATF_TP_ADD_TC(tp, attach_to_a_traced_process);
	ATF_TP_ADD_TC(tp, trace_me_twice);
	ATF_TP_ADD_TC(tp, attach_to_the_debugger);
	ATF_TP_ADD_TC(tp, requests_of_an_untraced_process);
	ATF_TP_ADD_TC(tp, requests_of_a_running_process);
	ATF_TP_ADD_TC(tp, continue_with_no_signal_number);
	ATF_TP_ADD_TC(tp, detach_lets_go_on);
	ATF_TP_ADD_TC(tp, detach_with_a_signal);
	ATF_TP_ADD_TC(tp, attach_detach_attach);
	ATF_TP_ADD_TC(tp, attach_to_a_stopped_process);
	ATF_TP_ADD_TC(tp, debugger_exit_ends_the_tracee);
	return (atf_no_error());
}
