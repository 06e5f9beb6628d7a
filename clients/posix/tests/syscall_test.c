/* Stops at the entry and the exit of system calls, and those of exec. */
#include <sys/types.h>
#include <sys/syscall.h>
#include <sys/sysctl.h>
#include "cases.h"

static const char *self;

static void
call_getpid(void)
{

	syscall(SYS_getpid);
	_exit(1);
}

static void
require_call(pid_t pid, int flag, unsigned code)
{
	struct ptrace_lwpinfo pl;

	stopped_by(pid, SIGTRAP);
	pl = information(pid);
	ATF_REQUIRE_MSG((pl.pl_flags & (PL_FLAG_SCE | PL_FLAG_SCX)) == flag, "flags %#x", pl.pl_flags);
	ATF_REQUIRE_MSG(pl.pl_syscall_code == code, "call %u instead of %u", pl.pl_syscall_code, code);
}

/* Goes on until the entry of this call, or its exit. */
static void
until_call(pid_t pid, int request, int flag, unsigned code)
{
	struct ptrace_lwpinfo pl;

	do {
		resume(request, pid, 0);
		stopped_by(pid, SIGTRAP);
		pl = information(pid);
		ATF_REQUIRE(pl.pl_flags & flag);
	} while (pl.pl_syscall_code != code);
}

ATF_TC_WITHOUT_HEAD(PT_SYSCALL_both);
ATF_TC_BODY(PT_SYSCALL_both, tc)
{
	pid_t pid = traced_child(call_getpid);

	until_call(pid, PT_SYSCALL, PL_FLAG_SCE | PL_FLAG_SCX, SYS_getpid);
	ATF_REQUIRE(information(pid).pl_flags & PL_FLAG_SCE);
	resume(PT_SYSCALL, pid, 0);
	require_call(pid, PL_FLAG_SCX, SYS_getpid);
	resume(PT_SYSCALL, pid, 0);
	require_call(pid, PL_FLAG_SCE, SYS_exit);
	resume(PT_SYSCALL, pid, 0);
	exited(pid, 1);
}

ATF_TC_WITHOUT_HEAD(PT_TO_SCE_entries);
ATF_TC_BODY(PT_TO_SCE_entries, tc)
{
	pid_t pid = traced_child(call_getpid);

	until_call(pid, PT_TO_SCE, PL_FLAG_SCE, SYS_getpid);
	resume(PT_TO_SCE, pid, 0);
	require_call(pid, PL_FLAG_SCE, SYS_exit);
	resume(PT_DETACH, pid, 0);
	exited(pid, 1);
}

ATF_TC_WITHOUT_HEAD(PT_TO_SCX_exits);
ATF_TC_BODY(PT_TO_SCX_exits, tc)
{
	pid_t pid = traced_child(call_getpid);

	until_call(pid, PT_TO_SCX, PL_FLAG_SCX, SYS_getpid);
	resume(PT_TO_SCX, pid, 0);
	exited(pid, 1);
}

ATF_TC_WITHOUT_HEAD(PT_KILL_in_a_system_call);
ATF_TC_BODY(PT_KILL_in_a_system_call, tc)
{
	pid_t pid = traced_child(call_getpid);

	until_call(pid, PT_SYSCALL, PL_FLAG_SCE | PL_FLAG_SCX, SYS_getpid);
	ATF_REQUIRE_EQ(ptrace(PT_KILL, pid, NULL, 0), 0);
	killed(pid, SIGKILL);
	no_child();
}

ATF_TC_WITHOUT_HEAD(PT_CONTINUE_with_signal_at_entry);
ATF_TC_BODY(PT_CONTINUE_with_signal_at_entry, tc)
{
	pid_t pid = traced_child(call_getpid);

	until_call(pid, PT_TO_SCE, PL_FLAG_SCE, SYS_getpid);
	resume(PT_CONTINUE, pid, SIGTERM);
	killed(pid, SIGTERM);
}

ATF_TC_WITHOUT_HEAD(no_stop_without_an_event);
ATF_TC_BODY(no_stop_without_an_event, tc)
{
	pid_t pid = traced_child(call_getpid);

	events(pid, 0);
	go_on(pid);
	exited(pid, 1);
}

/* ---- exec */

static void
become_image(void)
{

	execl(self, self, "image", (char *)NULL);
	_exit(99);
}

static void
find_self(void)
{
	static char path[1024];
	int name[4] = { CTL_KERN, KERN_PROC, KERN_PROC_PATHNAME, -1 };
	size_t size = sizeof(path);

	ATF_REQUIRE_EQ(sysctl(name, 4, path, &size, NULL, 0), 0);
	self = path;
}

/* The new image. */
ATF_TC_WITHOUT_HEAD(image);
ATF_TC_BODY(image, tc)
{

	_exit(getppid() == 1 ? 0 : 42);
}

ATF_TC_WITHOUT_HEAD(exec_stops);
ATF_TC_BODY(exec_stops, tc)
{
	struct ptrace_lwpinfo pl;
	pid_t pid;

	find_self();
	pid = traced_child(become_image);
	go_on(pid);
	stopped_by(pid, SIGTRAP);
	pl = information(pid);
	ATF_REQUIRE((pl.pl_flags & (PL_FLAG_EXEC | PL_FLAG_SCX)) == (PL_FLAG_EXEC | PL_FLAG_SCX));
	ATF_REQUIRE_EQ(pl.pl_syscall_code, SYS_execve);
	go_on(pid);
	exited(pid, 42);
}

ATF_TC_WITHOUT_HEAD(exec_without_its_event);
ATF_TC_BODY(exec_without_its_event, tc)
{
	pid_t pid;

	find_self();
	pid = traced_child(become_image);
	events(pid, 0);
	go_on(pid);
	exited(pid, 42);
}

static void
exec_nothing(void)
{

	CHILD_REQUIRE(execl("/no/such/file", "file", (char *)NULL) == -1 && errno == ENOENT);
	_exit(1);
}

ATF_TC_WITHOUT_HEAD(exec_that_fails);
ATF_TC_BODY(exec_that_fails, tc)
{
	pid_t pid = traced_child(exec_nothing);

	go_on(pid);
	exited(pid, 1);
}

static void
note(int sig)
{

	_exit(sig);
}

static void
catch_and_become_image(void)
{

	CHILD_REQUIRE(signal(SIGUSR1, note) != SIG_ERR && signal(SIGUSR2, SIG_IGN) != SIG_ERR);
	become_image();
}

/* Caught signals have the default action after exec, ignored ones stay ignored. */
ATF_TC_WITHOUT_HEAD(dispositions_after_exec);
ATF_TC_BODY(dispositions_after_exec, tc)
{
	pid_t pid;

	find_self();
	pid = traced_child(catch_and_become_image);
	go_on(pid);
	stopped_by(pid, SIGTRAP);
	resume(PT_CONTINUE, pid, SIGUSR1);
	killed(pid, SIGUSR1);
	pid = traced_child(catch_and_become_image);
	go_on(pid);
	stopped_by(pid, SIGTRAP);
	resume(PT_CONTINUE, pid, SIGUSR2);
	exited(pid, 42);
}

static void
run_sh(void)
{

	execlp("sh", "sh", "-c", "exit 5", (char *)NULL);
	_exit(99);
}

ATF_TC_WITHOUT_HEAD(exec_of_another_program);
ATF_TC_BODY(exec_of_another_program, tc)
{
	pid_t pid = traced_child(run_sh);

	go_on(pid);
	stopped_by(pid, SIGTRAP);
	ATF_REQUIRE(information(pid).pl_flags & PL_FLAG_EXEC);
	go_on(pid);
	exited(pid, 5);
}

ATF_TP_ADD_TCS(tp)
{

	ATF_TP_ADD_TC(tp, PT_SYSCALL_both);
	ATF_TP_ADD_TC(tp, PT_TO_SCE_entries);
	ATF_TP_ADD_TC(tp, PT_TO_SCX_exits);
	ATF_TP_ADD_TC(tp, PT_KILL_in_a_system_call);
	ATF_TP_ADD_TC(tp, PT_CONTINUE_with_signal_at_entry);
	ATF_TP_ADD_TC(tp, no_stop_without_an_event);
	ATF_TP_ADD_TC(tp, image);
	ATF_TP_ADD_TC(tp, exec_stops);
	ATF_TP_ADD_TC(tp, exec_without_its_event);
	ATF_TP_ADD_TC(tp, exec_that_fails);
	ATF_TP_ADD_TC(tp, dispositions_after_exec);
	ATF_TP_ADD_TC(tp, exec_of_another_program);
	return (atf_no_error());
}
