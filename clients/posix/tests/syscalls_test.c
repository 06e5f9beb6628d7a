/* Stops at system calls: PT_TO_SCE, PT_TO_SCX, PT_SYSCALL, and what passes through them. */
#include "debugger.h"
#include <sys/syscall.h>
#include <pthread.h>

static void
ask_for_numbers(void)
{
	getppid();
	getpid();
	_exit(1);
}

/* The process stops at a call's entry or exit, which is that of `code`. */
static bool
wait_call(pid_t pid, int flag, unsigned code)
{
	struct ptrace_lwpinfo pl;

	if (!wait_stop(pid, SIGTRAP))
		return (false);
	pl = info(pid);
	if ((pl.pl_flags & (PL_FLAG_SCE | PL_FLAG_SCX)) == flag && pl.pl_syscall_code == code)
		return (true);
	fprintf(stderr, "flags %#x and call %u instead of %#x and %u\n", pl.pl_flags, pl.pl_syscall_code, flag, code);
	return (false);
}

/* The exit of raise(3), in which the first stop was, may come first. */
static void
pass_call_exit(pid_t pid, int how, unsigned code)
{
	struct ptrace_lwpinfo pl;

	for (;;) {
		ATF_REQUIRE(request(how, pid, 0));
		ATF_REQUIRE(wait_stop(pid, SIGTRAP));
		pl = info(pid);
		ATF_REQUIRE(pl.pl_flags & (PL_FLAG_SCE | PL_FLAG_SCX));
		if (pl.pl_syscall_code == code)
			return;
		ATF_REQUIRE(pl.pl_flags & PL_FLAG_SCX);
	}
}

ATF_TC_WITHOUT_HEAD(to_sce);
ATF_TC_BODY(to_sce, tc)
{
	pid_t pid = start_traced(ask_for_numbers);

	ATF_REQUIRE(request(PT_TO_SCE, pid, 0));
	ATF_REQUIRE(wait_call(pid, PL_FLAG_SCE, SYS_getppid));
	ATF_REQUIRE(request(PT_TO_SCE, pid, 0));
	ATF_REQUIRE(wait_call(pid, PL_FLAG_SCE, SYS_getpid));
	ATF_REQUIRE(request(PT_TO_SCE, pid, 0));
	ATF_REQUIRE(wait_call(pid, PL_FLAG_SCE, SYS_exit));
	ATF_REQUIRE(request(PT_TO_SCE, pid, 0));
	ATF_REQUIRE(wait_exit(pid, 1));
}

ATF_TC_WITHOUT_HEAD(to_scx);
ATF_TC_BODY(to_scx, tc)
{
	pid_t pid = start_traced(ask_for_numbers);

	pass_call_exit(pid, PT_TO_SCX, SYS_getppid);
	ATF_REQUIRE(flags(pid) & PL_FLAG_SCX);
	ATF_REQUIRE(request(PT_TO_SCX, pid, 0));
	ATF_REQUIRE(wait_call(pid, PL_FLAG_SCX, SYS_getpid));
	ATF_REQUIRE(request(PT_TO_SCX, pid, 0));
	ATF_REQUIRE(wait_exit(pid, 1));
}

/* Entry and exit in turn; exit(2) has no exit. */
ATF_TC_WITHOUT_HEAD(entries_and_exits);
ATF_TC_BODY(entries_and_exits, tc)
{
	pid_t pid = start_traced(ask_for_numbers);

	pass_call_exit(pid, PT_SYSCALL, SYS_getppid);
	ATF_REQUIRE(flags(pid) & PL_FLAG_SCE);
	ATF_REQUIRE(request(PT_SYSCALL, pid, 0));
	ATF_REQUIRE(wait_call(pid, PL_FLAG_SCX, SYS_getppid));
	ATF_REQUIRE(request(PT_SYSCALL, pid, 0));
	ATF_REQUIRE(wait_call(pid, PL_FLAG_SCE, SYS_getpid));
	ATF_REQUIRE(request(PT_SYSCALL, pid, 0));
	ATF_REQUIRE(wait_call(pid, PL_FLAG_SCX, SYS_getpid));
	ATF_REQUIRE(request(PT_SYSCALL, pid, 0));
	ATF_REQUIRE(wait_call(pid, PL_FLAG_SCE, SYS_exit));
	ATF_REQUIRE(request(PT_SYSCALL, pid, 0));
	ATF_REQUIRE(wait_exit(pid, 1));
}

/* PT_TO_SCE is for all calls to come: PT_CONTINUE doesn't end it, a mask without the event does. */
ATF_TC_WITHOUT_HEAD(to_sce_lasts);
ATF_TC_BODY(to_sce_lasts, tc)
{
	pid_t pid = start_traced(ask_for_numbers);

	ATF_REQUIRE(request(PT_TO_SCE, pid, 0));
	ATF_REQUIRE(wait_call(pid, PL_FLAG_SCE, SYS_getppid));
	ATF_REQUIRE(go_on(pid));
	ATF_REQUIRE(wait_call(pid, PL_FLAG_SCE, SYS_getpid));
	set_events(pid, PTRACE_EXEC);
	ATF_REQUIRE(go_on(pid));
	ATF_REQUIRE(wait_exit(pid, 1));
}

static void
ask_for_number(void)
{
	getpid();
	_exit(1);
}

/* A process that is killed at a call's entry reports its end and nothing else. */
ATF_TC_WITHOUT_HEAD(PT_KILL_system_call);
ATF_TC_BODY(PT_KILL_system_call, tc)
{
	pid_t pid = start_traced(ask_for_number);

	ATF_REQUIRE(request(PT_TO_SCE, pid, 0));
	ATF_REQUIRE(wait_call(pid, PL_FLAG_SCE, SYS_getpid));
	ATF_REQUIRE(request(PT_KILL, pid, 0));
	ATF_REQUIRE(wait_signaled(pid, SIGKILL));
	ATF_REQUIRE(no_child_left());
}

static volatile sig_atomic_t caught;
static void count(int sig) { caught += sig == SIGUSR1 ? 1 : 10; }

static void
call_with_handlers(void)
{
	CHILD_REQUIRE(signal(SIGUSR1, count) != SIG_ERR);
	CHILD_REQUIRE(signal(SIGHUP, count) != SIG_ERR);
	CHILD_REQUIRE(raise(SIGUSR2) == 0);
	getppid();
	_exit(caught);
}

static pid_t
start_with_handlers(void)
{
	pid_t pid = start_traced(call_with_handlers);

	ATF_REQUIRE(go_on(pid));
	ATF_REQUIRE(wait_stop(pid, SIGUSR2));
	return (pid);
}

/* A signal that is delivered at a call's entry, or at its exit, runs the handler once, and doesn't stop again. */
ATF_TC_WITHOUT_HEAD(PT_CONTINUE_with_signal_system_call_entry);
ATF_TC_BODY(PT_CONTINUE_with_signal_system_call_entry, tc)
{
	pid_t pid = start_with_handlers();

	ATF_REQUIRE(request(PT_TO_SCE, pid, 0));
	ATF_REQUIRE(wait_call(pid, PL_FLAG_SCE, SYS_getppid));
	set_events(pid, 0);
	ATF_REQUIRE(request(PT_CONTINUE, pid, SIGUSR1));
	ATF_REQUIRE(wait_exit(pid, 1));
}

ATF_TC_WITHOUT_HEAD(PT_CONTINUE_with_signal_system_call_exit);
ATF_TC_BODY(PT_CONTINUE_with_signal_system_call_exit, tc)
{
	pid_t pid = start_with_handlers();

	pass_call_exit(pid, PT_TO_SCX, SYS_getppid);
	set_events(pid, 0);
	ATF_REQUIRE(request(PT_CONTINUE, pid, SIGUSR1));
	ATF_REQUIRE(wait_exit(pid, 1));
}

ATF_TC_WITHOUT_HEAD(PT_CONTINUE_with_signal_system_call_entry_and_exit);
ATF_TC_BODY(PT_CONTINUE_with_signal_system_call_entry_and_exit, tc)
{
	pid_t pid = start_with_handlers();

	pass_call_exit(pid, PT_SYSCALL, SYS_getppid);
	ATF_REQUIRE(flags(pid) & PL_FLAG_SCE);
	ATF_REQUIRE(request(PT_SYSCALL, pid, SIGUSR1));
	ATF_REQUIRE(wait_call(pid, PL_FLAG_SCX, SYS_getppid));
	set_events(pid, 0);
	ATF_REQUIRE(request(PT_CONTINUE, pid, SIGHUP));
	ATF_REQUIRE(wait_exit(pid, 11));
}

/* A signal that ends the process at a call's entry: the call has no exit. */
ATF_TC_WITHOUT_HEAD(ending_signal_at_system_call_entry);
ATF_TC_BODY(ending_signal_at_system_call_entry, tc)
{
	pid_t pid = start_traced(ask_for_numbers);

	pass_call_exit(pid, PT_SYSCALL, SYS_getppid);
	set_events(pid, 0);
	ATF_REQUIRE(request(PT_CONTINUE, pid, SIGTERM));
	ATF_REQUIRE(wait_signaled(pid, SIGTERM));
	ATF_REQUIRE(no_child_left());
}

/* A signal that comes between two stops at calls is a stop of its own, without their flags. */
ATF_TC_WITHOUT_HEAD(signal_between_calls);
ATF_TC_BODY(signal_between_calls, tc)
{
	pid_t pid = start_traced(call_with_handlers);
	int stops = 0, status;

	ATF_REQUIRE(request(PT_SYSCALL, pid, 0));
	for (;;) {
		ATF_REQUIRE(waitpid(pid, &status, 0) == pid);
		if (!WIFSTOPPED(status))
			break;
		if (WSTOPSIG(status) == SIGUSR2) {
			stops++;
			ATF_REQUIRE((flags(pid) & (PL_FLAG_SCE | PL_FLAG_SCX)) == 0);
		} else {
			ATF_REQUIRE(WSTOPSIG(status) == SIGTRAP);
			ATF_REQUIRE((flags(pid) & (PL_FLAG_SCE | PL_FLAG_SCX)) != 0);
		}
		ATF_REQUIRE(request(PT_SYSCALL, pid, 0));
	}
	ATF_REQUIRE(stops == 1);
	ATF_REQUIRE(status == EXITED_WITH(0));
}

static void *return_at_once(void *argument) { return (argument); }

static void
run_a_thread(void)
{
	pthread_t thread;

	CHILD_REQUIRE(pthread_create(&thread, NULL, return_at_once, NULL) == 0);
	CHILD_REQUIRE(pthread_join(thread, NULL) == 0);
	_exit(1);
}

/* The first stop of a new thread under PTRACE_SCX is the exit of the call that made it. */
ATF_TC_WITHOUT_HEAD(new_child_pl_syscall_code_thread);
ATF_TC_BODY(new_child_pl_syscall_code_thread, tc)
{
	pid_t pid = start_traced(run_a_thread);
	struct ptrace_lwpinfo pl = info(pid);
	lwpid_t first = pl.pl_lwpid;

	while (pl.pl_lwpid == first) {
		ATF_REQUIRE(request(PT_TO_SCX, pid, 0));
		ATF_REQUIRE(wait_stop(pid, SIGTRAP));
		pl = info(pid);
		ATF_REQUIRE(pl.pl_flags & PL_FLAG_SCX);
	}
	ATF_REQUIRE(pl.pl_syscall_code == SYS_thr_new);
	set_events(pid, 0);
	ATF_REQUIRE(go_on(pid));
	ATF_REQUIRE(wait_exit(pid, 1));
}

/* A bad signal is refused, and the process stays where it is. */
ATF_TC_WITHOUT_HEAD(bad_signals);
ATF_TC_BODY(bad_signals, tc)
{
	static const int requests[] = { PT_CONTINUE, PT_STEP, PT_TO_SCE, PT_TO_SCX, PT_SYSCALL };
	pid_t pid = start_traced(ask_for_numbers);
	int events = 0;

	for (unsigned i = 0; i < nitems(requests); i++) {
		ATF_REQUIRE_ERRNO(EINVAL, ptrace(requests[i], pid, (caddr_t)1, 1000) == -1);
		ATF_REQUIRE_ERRNO(EINVAL, ptrace(requests[i], pid, (caddr_t)1, -1) == -1);
	}
	ATF_REQUIRE(ptrace(PT_GET_EVENT_MASK, pid, (caddr_t)&events, sizeof(events)) == 0);
	ATF_REQUIRE(events == PTRACE_EXEC);
	ATF_REQUIRE(go_on(pid));
	ATF_REQUIRE(wait_exit(pid, 1));
}

ATF_TC_WITHOUT_HEAD(bad_request);
ATF_TC_BODY(bad_request, tc)
{
	pid_t pid = start_traced(ask_for_numbers);

	ATF_REQUIRE_ERRNO(EINVAL, ptrace(999, pid, (caddr_t)1, 0) == -1);
	ATF_REQUIRE(go_on(pid));
	ATF_REQUIRE(wait_exit(pid, 1));
}

ATF_TP_ADD_TCS(tp)
{
	ATF_TP_ADD_TC(tp, to_sce);
	ATF_TP_ADD_TC(tp, to_scx);
	ATF_TP_ADD_TC(tp, entries_and_exits);
	ATF_TP_ADD_TC(tp, to_sce_lasts);
	ATF_TP_ADD_TC(tp, PT_KILL_system_call);
	ATF_TP_ADD_TC(tp, PT_CONTINUE_with_signal_system_call_entry);
	ATF_TP_ADD_TC(tp, PT_CONTINUE_with_signal_system_call_exit);
	ATF_TP_ADD_TC(tp, PT_CONTINUE_with_signal_system_call_entry_and_exit);
	ATF_TP_ADD_TC(tp, ending_signal_at_system_call_entry);
	ATF_TP_ADD_TC(tp, signal_between_calls);
	ATF_TP_ADD_TC(tp, new_child_pl_syscall_code_thread);
	ATF_TP_ADD_TC(tp, bad_signals);
	ATF_TP_ADD_TC(tp, bad_request);
	return (atf_no_error());
}
