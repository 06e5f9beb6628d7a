/* What a debugger sees of fork and vfork. */
#include <time.h>
#include "cases.h"

static pid_t (*make)(void);

/* Makes a child that exits with 2, collects it, and exits with 1. */
static void
make_one(void)
{
	pid_t pid;
	int status;

	pid = make == vfork ? vfork() : fork();
	CHILD_REQUIRE(pid != -1);
	if (pid == 0)
		_exit(2);
	CHILD_REQUIRE(waitpid(pid, &status, 0) == pid);
	CHILD_REQUIRE(WIFEXITED(status) && WEXITSTATUS(status) == 2);
	_exit(1);
}

/* Both sides of a fork report a stop each, in either order: the child's number. */
static pid_t
both_sides(pid_t parent)
{
	struct ptrace_lwpinfo pl;
	pid_t named = 0, seen = 0, pid;
	int status;

	while (named == 0 || seen == 0) {
		ATF_REQUIRE((pid = waitpid(-1, &status, 0)) > 0);
		ATF_REQUIRE(WIFSTOPPED(status));
		pl = information(pid);
		if (pl.pl_flags & PL_FLAG_CHILD) {
			ATF_REQUIRE(seen == 0 && pid != parent);
			ATF_REQUIRE_EQ(WSTOPSIG(status), SIGSTOP);
			seen = pid;
		} else {
			ATF_REQUIRE(named == 0 && pid == parent);
			ATF_REQUIRE(pl.pl_flags & PL_FLAG_FORKED);
			ATF_REQUIRE_EQ(WSTOPSIG(status), SIGTRAP);
			ATF_REQUIRE_EQ((pl.pl_flags & PL_FLAG_VFORKED) != 0, make == vfork);
			named = pl.pl_child_pid;
		}
	}
	ATF_REQUIRE_EQ(named, seen);
	return (seen);
}

static void
follow(pid_t (*how)(void), int detach_child, int detach_parent)
{
	pid_t parent, pid;

	make = how;
	parent = traced_child(make_one);
	ATF_REQUIRE_EQ(ptrace(PT_FOLLOW_FORK, parent, NULL, 1), 0);
	go_on(parent);
	pid = both_sides(parent);
	resume(detach_child ? PT_DETACH : PT_CONTINUE, pid, 0);
	resume(detach_parent ? PT_DETACH : PT_CONTINUE, parent, 0);
	if (!detach_child)
		exited(pid, 2);
	exited(parent, 1);
	no_child();
}

#define FOLLOW(name, how, child, parent) \
	ATF_TC_WITHOUT_HEAD(name); \
	ATF_TC_BODY(name, tc) { follow(how, child, parent); }

FOLLOW(follow_fork_both_attached, fork, 0, 0)
FOLLOW(follow_fork_child_detached, fork, 1, 0)
FOLLOW(follow_fork_parent_detached, fork, 0, 1)
FOLLOW(follow_fork_both_detached, fork, 1, 1)
FOLLOW(follow_vfork_both_attached, vfork, 0, 0)
FOLLOW(follow_vfork_child_detached, vfork, 1, 0)
FOLLOW(follow_vfork_parent_detached, vfork, 0, 1)
FOLLOW(follow_vfork_both_detached, vfork, 1, 1)

ATF_TC_WITHOUT_HEAD(fork_not_followed);
ATF_TC_BODY(fork_not_followed, tc)
{
	pid_t parent;

	make = fork;
	parent = traced_child(make_one);
	go_on(parent);
	exited(parent, 1);
	no_child();
}

static void
new_child_code(pid_t (*how)(void), unsigned code)
{
	pid_t parent, pid;

	make = how;
	parent = traced_child(make_one);
	ATF_REQUIRE_EQ(ptrace(PT_FOLLOW_FORK, parent, NULL, 1), 0);
	go_on(parent);
	pid = both_sides(parent);
	ATF_REQUIRE_EQ(information(pid).pl_syscall_code, code);
	ATF_REQUIRE_EQ(information(parent).pl_syscall_code, code);
	ATF_REQUIRE(information(pid).pl_flags & PL_FLAG_SCX);
	go_on(pid);
	go_on(parent);
	exited(pid, 2);
	exited(parent, 1);
}

ATF_TC_WITHOUT_HEAD(new_child_pl_syscall_code_fork);
ATF_TC_BODY(new_child_pl_syscall_code_fork, tc) { new_child_code(fork, 2); }

ATF_TC_WITHOUT_HEAD(new_child_pl_syscall_code_vfork);
ATF_TC_BODY(new_child_pl_syscall_code_vfork, tc) { new_child_code(vfork, 66); }

/* A child that is followed has only PTRACE_EXEC in its mask: its own fork isn't followed. */
ATF_TC_WITHOUT_HEAD(event_mask_is_not_inherited);
ATF_TC_BODY(event_mask_is_not_inherited, tc)
{
	pid_t parent, pid;
	int mask;

	make = fork;
	parent = traced_child(make_one);
	events(parent, PTRACE_EXEC | PTRACE_FORK | PTRACE_LWP);
	go_on(parent);
	pid = both_sides(parent);
	ATF_REQUIRE_EQ(ptrace(PT_GET_EVENT_MASK, pid, (caddr_t)&mask, sizeof(mask)), 0);
	ATF_REQUIRE_EQ(mask, PTRACE_EXEC);
	ATF_REQUIRE_EQ(ptrace(PT_GET_EVENT_MASK, parent, (caddr_t)&mask, sizeof(mask)), 0);
	ATF_REQUIRE_EQ(mask, PTRACE_EXEC | PTRACE_FORK | PTRACE_LWP);
	go_on(pid);
	go_on(parent);
	exited(pid, 2);
	exited(parent, 1);
}

/* The end of a vfork's child is reported, also if the child isn't followed. */
ATF_TC_WITHOUT_HEAD(vfork_done);
ATF_TC_BODY(vfork_done, tc)
{
	struct ptrace_lwpinfo pl;
	pid_t parent;

	make = vfork;
	parent = traced_child(make_one);
	events(parent, PTRACE_VFORK);
	go_on(parent);
	for (;;) {
		int status;

		ATF_REQUIRE_EQ(waitpid(parent, &status, 0), parent);
		ATF_REQUIRE(WIFSTOPPED(status));
		pl = information(parent);
		if (pl.pl_flags & PL_FLAG_VFORK_DONE)
			break;
		go_on(parent);
	}
	go_on(parent);
	exited(parent, 1);
	no_child();
}

ATF_TC_WITHOUT_HEAD(vfork_done_and_followed);
ATF_TC_BODY(vfork_done_and_followed, tc)
{
	pid_t parent, pid;
	int status;

	make = vfork;
	parent = traced_child(make_one);
	events(parent, PTRACE_FORK | PTRACE_VFORK);
	go_on(parent);
	pid = both_sides(parent);
	go_on(parent);
	go_on(pid);
	exited(pid, 2);
	do {
		ATF_REQUIRE_EQ(waitpid(parent, &status, 0), parent);
		ATF_REQUIRE(WIFSTOPPED(status));
		if (information(parent).pl_flags & PL_FLAG_VFORK_DONE)
			status = 0;
		go_on(parent);
	} while (status != 0);
	exited(parent, 1);
}

/* pthread_atfork(3): its handlers compute for long in the midst of a fork. */
static int before, in_parent, in_child;

static void
compute(void)
{
	struct timespec used;

	before++;
	do {
		ATF_REQUIRE_EQ(clock_gettime(CLOCK_THREAD_CPUTIME_ID, &used), 0);
	} while (used.tv_sec == 0 && used.tv_nsec < 200000000);
}

static void forked(void) { in_parent++; }
static void born(void) { in_child++; }

ATF_TC_WITHOUT_HEAD(atfork_handlers);
ATF_TC_BODY(atfork_handlers, tc)
{
	pid_t pid;

	ATF_REQUIRE_EQ(pthread_atfork(compute, forked, born), 0);
	ATF_REQUIRE((pid = fork()) != -1);
	if (pid == 0)
		_exit(before == 1 && in_parent == 0 && in_child == 1 ? 0 : 1);
	exited(pid, 0);
	ATF_REQUIRE(before == 1 && in_parent == 1 && in_child == 0);
}

ATF_TP_ADD_TCS(tp)
{

	ATF_TP_ADD_TC(tp, follow_fork_both_attached);
	ATF_TP_ADD_TC(tp, follow_fork_child_detached);
	ATF_TP_ADD_TC(tp, follow_fork_parent_detached);
	ATF_TP_ADD_TC(tp, follow_fork_both_detached);
	ATF_TP_ADD_TC(tp, follow_vfork_both_attached);
	ATF_TP_ADD_TC(tp, follow_vfork_child_detached);
	ATF_TP_ADD_TC(tp, follow_vfork_parent_detached);
	ATF_TP_ADD_TC(tp, follow_vfork_both_detached);
	ATF_TP_ADD_TC(tp, fork_not_followed);
	ATF_TP_ADD_TC(tp, new_child_pl_syscall_code_fork);
	ATF_TP_ADD_TC(tp, new_child_pl_syscall_code_vfork);
	ATF_TP_ADD_TC(tp, event_mask_is_not_inherited);
	ATF_TP_ADD_TC(tp, vfork_done);
	ATF_TP_ADD_TC(tp, vfork_done_and_followed);
	ATF_TP_ADD_TC(tp, atfork_handlers);
	return (atf_no_error());
}
