/* Forks of traced processes: PT_FOLLOW_FORK, PTRACE_FORK and PTRACE_VFORK. */
#include "debugger.h"
#include <sys/syscall.h>

static void
vfork_once(void)
{
	pid_t pid = vfork();

	CHILD_REQUIRE(pid != -1);
	if (pid == 0)
		_exit(2);
	see_child_exit(pid);
}

/* The two stops of a fork, in either order: what PT_LWPINFO gives of the parent and of the child, whose number is returned. */
static pid_t
wait_fork(pid_t parent, struct ptrace_lwpinfo *of_parent, struct ptrace_lwpinfo *of_child)
{
	struct ptrace_lwpinfo pl;
	pid_t child = -1, pid;
	int status;
	bool parent_seen = false;

	for (int i = 0; i < 2; i++) {
		ATF_REQUIRE((pid = wait_past_sigchld(-1, &status)) > 0);
		ATF_REQUIRE(WIFSTOPPED(status));
		pl = info(pid);
		if (pl.pl_flags & PL_FLAG_CHILD) {
			ATF_REQUIRE(WSTOPSIG(status) == SIGSTOP);
			ATF_REQUIRE(pid != parent && (child == -1 || child == pid));
			child = pid;
			*of_child = pl;
		} else {
			ATF_REQUIRE(WSTOPSIG(status) == SIGTRAP);
			ATF_REQUIRE(pid == parent && !parent_seen);
			ATF_REQUIRE(pl.pl_flags & PL_FLAG_FORKED);
			ATF_REQUIRE(child == -1 || child == pl.pl_child_pid);
			child = pl.pl_child_pid;
			parent_seen = true;
			*of_parent = pl;
		}
	}
	ATF_REQUIRE(parent_seen);
	return (child);
}

static pid_t
follow(pid_t parent)
{
	struct ptrace_lwpinfo pl[2];

	ATF_REQUIRE(ptrace(PT_FOLLOW_FORK, parent, NULL, 1) == 0);
	ATF_REQUIRE(go_on(parent));
	return (wait_fork(parent, &pl[0], &pl[1]));
}

/* The parent exits after its child has: a child that is still traced is seen first. */
static void
see_exits(pid_t parent, int parent_request, int child_request, bool ours)
{
	pid_t child = follow(parent);

	ATF_REQUIRE(request(parent_request, parent, 0));
	ATF_REQUIRE(request(child_request, child, 0));
	if (child_request == PT_CONTINUE)
		ATF_REQUIRE(wait_exit(child, 2));
	if (ours || parent_request == PT_CONTINUE)
		ATF_REQUIRE(wait_exit_past_sigchld(parent, 1));
	ATF_REQUIRE(no_child_left());
}

ATF_TC_WITHOUT_HEAD(follow_fork_both_attached);
ATF_TC_BODY(follow_fork_both_attached, tc)
{
	see_exits(start_traced(fork_once), PT_CONTINUE, PT_CONTINUE, true);
}

ATF_TC_WITHOUT_HEAD(follow_fork_child_detached);
ATF_TC_BODY(follow_fork_child_detached, tc)
{
	see_exits(start_traced(fork_once), PT_CONTINUE, PT_DETACH, true);
}

ATF_TC_WITHOUT_HEAD(follow_fork_parent_detached);
ATF_TC_BODY(follow_fork_parent_detached, tc)
{
	see_exits(start_traced(fork_once), PT_DETACH, PT_CONTINUE, true);
}

ATF_TC_WITHOUT_HEAD(follow_fork_both_detached);
ATF_TC_BODY(follow_fork_both_detached, tc)
{
	see_exits(start_traced(fork_once), PT_DETACH, PT_DETACH, true);
}

static int reported[2], gate[2];

static void
fork_as_an_orphan(void)
{
	pid_t pid = fork();

	CHILD_REQUIRE(pid != -1);
	if (pid != 0)
		return;
	pid = getpid();
	CHILD_REQUIRE(write(reported[1], &pid, sizeof(pid)) == sizeof(pid));
	CHILD_REQUIRE(await_release(gate[0]));
	fork_once();
}

/* A process that isn't the debugger's child, attached to before it forks. */
static pid_t
attach_orphan(void)
{
	pid_t orphan;

	ATF_REQUIRE(pipe(reported) == 0 && pipe(gate) == 0);
	ATF_REQUIRE(wait_exit(start(fork_as_an_orphan), 0));
	ATF_REQUIRE(read(reported[0], &orphan, sizeof(orphan)) == sizeof(orphan));
	ATF_REQUIRE(attach(orphan));
	release(gate[1]);
	return (orphan);
}

ATF_TC_WITHOUT_HEAD(follow_fork_both_attached_unrelated_debugger);
ATF_TC_BODY(follow_fork_both_attached_unrelated_debugger, tc)
{
	see_exits(attach_orphan(), PT_CONTINUE, PT_CONTINUE, false);
}

ATF_TC_WITHOUT_HEAD(follow_fork_child_detached_unrelated_debugger);
ATF_TC_BODY(follow_fork_child_detached_unrelated_debugger, tc)
{
	see_exits(attach_orphan(), PT_CONTINUE, PT_DETACH, false);
}

ATF_TC_WITHOUT_HEAD(follow_fork_parent_detached_unrelated_debugger);
ATF_TC_BODY(follow_fork_parent_detached_unrelated_debugger, tc)
{
	see_exits(attach_orphan(), PT_DETACH, PT_CONTINUE, false);
}

ATF_TC_WITHOUT_HEAD(follow_vfork_both_attached);
ATF_TC_BODY(follow_vfork_both_attached, tc)
{
	see_exits(start_traced(vfork_once), PT_CONTINUE, PT_CONTINUE, true);
}

ATF_TC_WITHOUT_HEAD(follow_vfork_child_detached);
ATF_TC_BODY(follow_vfork_child_detached, tc)
{
	see_exits(start_traced(vfork_once), PT_CONTINUE, PT_DETACH, true);
}

/* The call that made the child is the last one of both, and both leave it. */
static void
compare_codes(pid_t parent, unsigned code)
{
	struct ptrace_lwpinfo pl[2];
	pid_t child;

	ATF_REQUIRE(ptrace(PT_FOLLOW_FORK, parent, NULL, 1) == 0);
	ATF_REQUIRE(go_on(parent));
	child = wait_fork(parent, &pl[0], &pl[1]);
	for (int i = 0; i < 2; i++) {
		ATF_REQUIRE(pl[i].pl_flags & PL_FLAG_SCX);
		ATF_REQUIRE(pl[i].pl_syscall_code == code);
	}
	ATF_REQUIRE(((pl[0].pl_flags & PL_FLAG_VFORKED) != 0) == (code == SYS_vfork));
	ATF_REQUIRE((pl[1].pl_flags & (PL_FLAG_FORKED | PL_FLAG_VFORKED)) == 0);
	ATF_REQUIRE(request(PT_KILL, child, 0));
	ATF_REQUIRE(request(PT_KILL, parent, 0));
	ATF_REQUIRE(wait_signaled(child, SIGKILL));
	ATF_REQUIRE(wait_signaled(parent, SIGKILL));
}

ATF_TC_WITHOUT_HEAD(new_child_pl_syscall_code_fork);
ATF_TC_BODY(new_child_pl_syscall_code_fork, tc)
{
	compare_codes(start_traced(fork_once), SYS_fork);
}

ATF_TC_WITHOUT_HEAD(new_child_pl_syscall_code_vfork);
ATF_TC_BODY(new_child_pl_syscall_code_vfork, tc)
{
	compare_codes(start_traced(vfork_once), SYS_vfork);
}

/* Without PTRACE_FORK a child isn't traced, and neither process stops. */
ATF_TC_WITHOUT_HEAD(fork_without_following);
ATF_TC_BODY(fork_without_following, tc)
{
	pid_t pid = start_traced(fork_once);

	ATF_REQUIRE(ptrace(PT_FOLLOW_FORK, pid, NULL, 1) == 0);
	ATF_REQUIRE(ptrace(PT_FOLLOW_FORK, pid, NULL, 0) == 0);
	ATF_REQUIRE(go_on(pid));
	ATF_REQUIRE(wait_exit_past_sigchld(pid, 1));
	ATF_REQUIRE(no_child_left());
}

static void
fork_twice_down(void)
{
	pid_t pid = fork();

	CHILD_REQUIRE(pid != -1);
	if (pid == 0)
		fork_once();
	CHILD_REQUIRE(waitpid(pid, NULL, 0) == pid);
	_exit(3);
}

/* A new child has the default events, so that its own children aren't traced. */
ATF_TC_WITHOUT_HEAD(event_mask_of_child);
ATF_TC_BODY(event_mask_of_child, tc)
{
	pid_t child, parent = start_traced(fork_twice_down);
	int events = PTRACE_FORK | PTRACE_LWP | PTRACE_EXEC;

	set_events(parent, events);
	child = follow(parent);
	ATF_REQUIRE(ptrace(PT_GET_EVENT_MASK, child, (caddr_t)&events, sizeof(events)) == 0);
	ATF_REQUIRE(events == PTRACE_EXEC);
	ATF_REQUIRE(go_on(parent));
	ATF_REQUIRE(go_on(child));
	ATF_REQUIRE(wait_exit_past_sigchld(child, 1));
	ATF_REQUIRE(wait_exit_past_sigchld(parent, 3));
	ATF_REQUIRE(no_child_left());
}

static void
run_two_children(void)
{
	for (int i = 0; i < 2; i++) {
		pid_t pid = fork();

		CHILD_REQUIRE(pid != -1);
		if (pid == 0)
			_exit(10 + i);
		CHILD_REQUIRE(waitpid(pid, NULL, 0) == pid);
	}
	_exit(1);
}

/* PTRACE_FORK stays set: each fork is followed. */
ATF_TC_WITHOUT_HEAD(follow_two_forks);
ATF_TC_BODY(follow_two_forks, tc)
{
	struct ptrace_lwpinfo pl[2];
	pid_t child, parent = start_traced(run_two_children);

	ATF_REQUIRE(ptrace(PT_FOLLOW_FORK, parent, NULL, 1) == 0);
	ATF_REQUIRE(go_on(parent));
	for (int i = 0; i < 2; i++) {
		child = wait_fork(parent, &pl[0], &pl[1]);
		ATF_REQUIRE(go_on(child));
		ATF_REQUIRE(wait_exit(child, 10 + i));
		ATF_REQUIRE(go_on(parent));
	}
	ATF_REQUIRE(wait_exit_past_sigchld(parent, 1));
}

/* A child can be ended in its first stop: its parent sees that. */
static void
fork_killed_child(void)
{
	pid_t pid = fork();
	int status;

	CHILD_REQUIRE(pid != -1);
	if (pid == 0)
		_exit(2);
	CHILD_REQUIRE(waitpid(pid, &status, 0) == pid);
	CHILD_REQUIRE(WIFSIGNALED(status) && WTERMSIG(status) == SIGKILL);
	_exit(1);
}

ATF_TC_WITHOUT_HEAD(kill_child_in_first_stop);
ATF_TC_BODY(kill_child_in_first_stop, tc)
{
	pid_t parent = start_traced(fork_killed_child), child = follow(parent);

	ATF_REQUIRE(request(PT_KILL, child, 0));
	ATF_REQUIRE(wait_signaled(child, SIGKILL));
	ATF_REQUIRE(go_on(parent));
	ATF_REQUIRE(wait_exit_past_sigchld(parent, 1));
}

/* PTRACE_VFORK reports the end of a vfork(2), whether or not the child is traced. */
static void
see_vfork_done(int events)
{
	struct ptrace_lwpinfo pl[2];
	pid_t child, parent = start_traced(vfork_once);
	int status;

	set_events(parent, events | PTRACE_VFORK);
	ATF_REQUIRE(go_on(parent));
	if (events & PTRACE_FORK) {
		child = wait_fork(parent, &pl[0], &pl[1]);
		ATF_REQUIRE(pl[0].pl_flags & PL_FLAG_VFORKED);
		ATF_REQUIRE(go_on(child));
		ATF_REQUIRE(go_on(parent));
		ATF_REQUIRE(wait_exit(child, 2));
	}
	ATF_REQUIRE(wait_past_sigchld(parent, &status) == parent);
	ATF_REQUIRE(status == STOPPED_BY(SIGTRAP));
	ATF_REQUIRE(flags(parent) & PL_FLAG_VFORK_DONE);
	ATF_REQUIRE(go_on(parent));
	ATF_REQUIRE(wait_exit_past_sigchld(parent, 1));
	ATF_REQUIRE(no_child_left());
}

ATF_TC_WITHOUT_HEAD(ptrace_vfork);
ATF_TC_BODY(ptrace_vfork, tc)
{
	see_vfork_done(0);
}

ATF_TC_WITHOUT_HEAD(ptrace_vfork_follow);
ATF_TC_BODY(ptrace_vfork_follow, tc)
{
	see_vfork_done(PTRACE_FORK);
}

ATF_TP_ADD_TCS(tp)
{
	ATF_TP_ADD_TC(tp, follow_fork_both_attached);
	ATF_TP_ADD_TC(tp, follow_fork_child_detached);
	ATF_TP_ADD_TC(tp, follow_fork_parent_detached);
	ATF_TP_ADD_TC(tp, follow_fork_both_detached);
	ATF_TP_ADD_TC(tp, follow_fork_both_attached_unrelated_debugger);
	ATF_TP_ADD_TC(tp, follow_fork_child_detached_unrelated_debugger);
	ATF_TP_ADD_TC(tp, follow_fork_parent_detached_unrelated_debugger);
	ATF_TP_ADD_TC(tp, follow_vfork_both_attached);
	ATF_TP_ADD_TC(tp, follow_vfork_child_detached);
	ATF_TP_ADD_TC(tp, new_child_pl_syscall_code_fork);
	ATF_TP_ADD_TC(tp, new_child_pl_syscall_code_vfork);
	ATF_TP_ADD_TC(tp, fork_without_following);
	ATF_TP_ADD_TC(tp, event_mask_of_child);
	ATF_TP_ADD_TC(tp, follow_two_forks);
	ATF_TP_ADD_TC(tp, kill_child_in_first_stop);
	ATF_TP_ADD_TC(tp, ptrace_vfork);
	ATF_TP_ADD_TC(tp, ptrace_vfork_follow);
	return (atf_no_error());
}
