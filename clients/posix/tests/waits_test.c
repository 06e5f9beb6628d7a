/* wait(2) and its kin: what a parent sees, when, and how often. */
#include "debugger.h"
#include <sys/resource.h>

static void exit_with_0(void) { _exit(0); }
static void exit_with_1(void) { _exit(1); }

/* The low eight bits of the exit code, and one of four macros. */
static void exit_with_big_code(void) { _exit(0x1203); }

ATF_TC_WITHOUT_HEAD(exit_codes);
ATF_TC_BODY(exit_codes, tc)
{
	int status;
	pid_t pid = start(exit_with_big_code);

	ATF_REQUIRE(waitpid(pid, &status, 0) == pid);
	ATF_REQUIRE(WIFEXITED(status) && WEXITSTATUS(status) == 3);
	ATF_REQUIRE(!WIFSIGNALED(status) && !WIFSTOPPED(status) && !WIFCONTINUED(status));
	pid = start(exit_with_0);
	ATF_REQUIRE(wait(&status) == pid);
	ATF_REQUIRE(status == 0);
}

ATF_TC_WITHOUT_HEAD(signals_in_status);
ATF_TC_BODY(signals_in_status, tc)
{
	int status;
	pid_t pid = start(sleep_for_ever);

	ATF_REQUIRE(kill(pid, SIGALRM) == 0);
	ATF_REQUIRE(waitpid(pid, &status, 0) == pid);
	ATF_REQUIRE(WIFSIGNALED(status) && WTERMSIG(status) == SIGALRM);
	ATF_REQUIRE(!WIFEXITED(status) && !WIFSTOPPED(status) && !WIFCONTINUED(status));
}

ATF_TC_WITHOUT_HEAD(no_children);
ATF_TC_BODY(no_children, tc)
{
	ATF_REQUIRE_ERRNO(ECHILD, wait(NULL) == -1);
	ATF_REQUIRE_ERRNO(ECHILD, waitpid(-1, NULL, WNOHANG) == -1);
	ATF_REQUIRE_ERRNO(ECHILD, waitpid(getpid(), NULL, 0) == -1);
	ATF_REQUIRE_ERRNO(ECHILD, waitpid(getppid(), NULL, WNOHANG) == -1);
}

/* WNOHANG answers 0 as long as there is nothing to report, and a status is reported once. */
static int gate[2];

static void
exit_when_released(void)
{
	CHILD_REQUIRE(await_release(gate[0]));
	_exit(1);
}

ATF_TC_WITHOUT_HEAD(without_hanging);
ATF_TC_BODY(without_hanging, tc)
{
	int status;
	pid_t pid;

	ATF_REQUIRE(pipe(gate) == 0);
	pid = start(exit_when_released);
	ATF_REQUIRE(waitpid(pid, &status, WNOHANG) == 0);
	ATF_REQUIRE(waitpid(-1, &status, WNOHANG | WUNTRACED | WCONTINUED) == 0);
	release(gate[1]);
	ATF_REQUIRE(wait_exit(pid, 1));
	ATF_REQUIRE_ERRNO(ECHILD, waitpid(pid, &status, WNOHANG) == -1);
}

/* Each of several children is reported once, in some order. */
ATF_TC_WITHOUT_HEAD(several_children);
ATF_TC_BODY(several_children, tc)
{
	int status, sum = 0;
	pid_t pid;

	for (int i = 1; i <= 8; i++) {
		ATF_REQUIRE((pid = fork()) != -1);
		if (pid == 0)
			_exit(i);
	}
	while (wait(&status) > 0)
		sum += WEXITSTATUS(status);
	ATF_REQUIRE(errno == ECHILD);
	ATF_REQUIRE(sum == 36);
}

ATF_TC_WITHOUT_HEAD(one_of_several);
ATF_TC_BODY(one_of_several, tc)
{
	pid_t first = start(exit_with_0), second = start(exit_with_1);

	ATF_REQUIRE(wait_exit(second, 1));
	ATF_REQUIRE(wait_exit(first, 0));
	ATF_REQUIRE(no_child_left());
}

/* A child's own children aren't its parent's. */
static int reported[2];

static void
leave_a_child(void)
{
	pid_t pid = fork();

	CHILD_REQUIRE(pid != -1);
	if (pid == 0) {
		CHILD_REQUIRE(await_release(gate[0]));
		pid = getppid();
		CHILD_REQUIRE(write(reported[1], &pid, sizeof(pid)) == sizeof(pid));
		return;
	}
	CHILD_REQUIRE(write(reported[1], &pid, sizeof(pid)) == sizeof(pid));
}

/* An orphan has another parent, and isn't waited for by its grandparent. */
ATF_TC_WITHOUT_HEAD(orphans);
ATF_TC_BODY(orphans, tc)
{
	pid_t middle, orphan, parent;

	ATF_REQUIRE(pipe(gate) == 0 && pipe(reported) == 0);
	middle = start(leave_a_child);
	ATF_REQUIRE(wait_exit(middle, 0));
	ATF_REQUIRE(read(reported[0], &orphan, sizeof(orphan)) == sizeof(orphan));
	ATF_REQUIRE_ERRNO(ECHILD, waitpid(orphan, NULL, WNOHANG) == -1);
	release(gate[1]);
	ATF_REQUIRE(read(reported[0], &parent, sizeof(parent)) == sizeof(parent));
	ATF_REQUIRE(parent != middle && parent != getpid());
}

/* A traced child's stop is reported without an option; its end once. */
ATF_TC_WITHOUT_HEAD(trace_stop_without_option);
ATF_TC_BODY(trace_stop_without_option, tc)
{
	int status;
	pid_t pid = start_traced(exit_with_1);

	ATF_REQUIRE(waitpid(pid, &status, WNOHANG | WUNTRACED) == 0);
	ATF_REQUIRE(go_on(pid));
	ATF_REQUIRE(wait_exit(pid, 1));
}

static void
stop_once(void)
{
	CHILD_REQUIRE(raise(SIGSTOP) == 0);
	_exit(1);
}

/* A job stop is reported under WUNTRACED, a continuation under WCONTINUED, each once. */
ATF_TC_WITHOUT_HEAD(stops_and_continuations);
ATF_TC_BODY(stops_and_continuations, tc)
{
	int status;
	pid_t pid = start(stop_once);

	ATF_REQUIRE(waitpid(pid, &status, WUNTRACED) == pid);
	ATF_REQUIRE(WIFSTOPPED(status) && WSTOPSIG(status) == SIGSTOP);
	ATF_REQUIRE(waitpid(pid, &status, WUNTRACED | WNOHANG) == 0);
	ATF_REQUIRE(kill(pid, SIGCONT) == 0);
	ATF_REQUIRE(wait_exit(pid, 1));
	ATF_REQUIRE(pipe(gate) == 0);
	pid = start(exit_when_released);
	ATF_REQUIRE(kill(pid, SIGSTOP) == 0);
	ATF_REQUIRE(waitpid(pid, &status, WUNTRACED) == pid);
	ATF_REQUIRE(status == STOPPED_BY(SIGSTOP));
	ATF_REQUIRE(kill(pid, SIGCONT) == 0);
	ATF_REQUIRE(waitpid(pid, &status, WCONTINUED) == pid);
	ATF_REQUIRE(WIFCONTINUED(status));
	ATF_REQUIRE(!WIFEXITED(status) && !WIFSIGNALED(status) && !WIFSTOPPED(status));
	ATF_REQUIRE(waitpid(pid, &status, WCONTINUED | WNOHANG) == 0);
	release(gate[1]);
	ATF_REQUIRE(wait_exit(pid, 1));
}

/* A caught signal interrupts a wait, or lets it go on under SA_RESTART. */
static volatile sig_atomic_t caught;
static void note(int sig) { caught = sig; }

static void
catch_with(int sig, int flags)
{
	struct sigaction sa;

	memset(&sa, 0, sizeof(sa));
	sa.sa_handler = note;
	sa.sa_flags = flags;
	sigemptyset(&sa.sa_mask);
	ATF_REQUIRE(sigaction(sig, &sa, NULL) == 0);
}

static void
wake_for_ever(void)
{
	for (;;) {
		CHILD_REQUIRE(kill(getppid(), SIGUSR1) == 0);
		usleep(1000);
	}
}

ATF_TC_WITHOUT_HEAD(interrupted);
ATF_TC_BODY(interrupted, tc)
{
	pid_t pid;

	catch_with(SIGUSR1, 0);
	pid = start(wake_for_ever);
	ATF_REQUIRE_ERRNO(EINTR, waitpid(pid, NULL, 0) == -1);
	ATF_REQUIRE(caught == SIGUSR1);
	ATF_REQUIRE(signal(SIGUSR1, SIG_IGN) != SIG_ERR);
	ATF_REQUIRE(kill(pid, SIGKILL) == 0);
	ATF_REQUIRE(wait_signaled(pid, SIGKILL));
}

static void
wake_and_exit(void)
{
	CHILD_REQUIRE(kill(getppid(), SIGUSR1) == 0);
	_exit(1);
}

ATF_TC_WITHOUT_HEAD(restarted);
ATF_TC_BODY(restarted, tc)
{
	catch_with(SIGUSR1, SA_RESTART);
	ATF_REQUIRE(wait_exit(start(wake_and_exit), 1));
	ATF_REQUIRE(caught == SIGUSR1);
}

/* wait3(2), wait4(2) and the usage of the child. */
ATF_TC_WITHOUT_HEAD(wait3_and_wait4);
ATF_TC_BODY(wait3_and_wait4, tc)
{
	struct rusage usage;
	pid_t pid = start(exit_with_1);
	int status;

	memset(&usage, 0xff, sizeof(usage));
	ATF_REQUIRE(wait3(&status, 0, &usage) == pid && status == EXITED_WITH(1));
	ATF_REQUIRE(usage.ru_utime.tv_sec >= 0 && usage.ru_utime.tv_usec >= 0);
	pid = start(exit_with_1);
	ATF_REQUIRE(wait4(pid, &status, 0, NULL) == pid && status == EXITED_WITH(1));
}

/* waitid(2) and wait6(2) need the kinds of status to wait for. */
ATF_TC_WITHOUT_HEAD(waitid_of_an_exit);
ATF_TC_BODY(waitid_of_an_exit, tc)
{
	pid_t pid = start(exit_with_1);
	siginfo_t si;

	memset(&si, 0, sizeof(si));
	ATF_REQUIRE(waitid(P_PID, pid, &si, WEXITED) == 0);
	ATF_REQUIRE(si.si_signo == SIGCHLD && si.si_pid == pid && si.si_status == 1);
	ATF_REQUIRE_ERRNO(ECHILD, waitid(P_ALL, 0, &si, WEXITED) == -1);
	ATF_REQUIRE_ERRNO(EINVAL, waitid(P_ALL, 0, &si, WNOHANG) == -1);
}

ATF_TC_WITHOUT_HEAD(wait6_of_an_exit);
ATF_TC_BODY(wait6_of_an_exit, tc)
{
	pid_t pid = start(exit_with_1);
	int status = 0;

	ATF_REQUIRE(wait6(P_PID, pid, &status, WEXITED, NULL, NULL) == pid);
	ATF_REQUIRE(status == EXITED_WITH(1));
	ATF_REQUIRE_ERRNO(EINVAL, wait6(P_ALL, 0, &status, 0, NULL, NULL) == -1);
}

/* WNOWAIT leaves the status to be reported again. */
ATF_TC_WITHOUT_HEAD(looking_without_collecting);
ATF_TC_BODY(looking_without_collecting, tc)
{
	pid_t pid = start(exit_with_1);
	int status = 0;

	ATF_REQUIRE(waitpid(pid, &status, WNOWAIT) == pid && status == EXITED_WITH(1));
	ATF_REQUIRE(wait_exit(pid, 1));
	ATF_REQUIRE(no_child_left());
}

/* Only WEXITED: no stops. */
ATF_TC_WITHOUT_HEAD(exits_alone);
ATF_TC_BODY(exits_alone, tc)
{
	pid_t pid = start_traced(exit_with_1);
	int status = 0;

	ATF_REQUIRE(kill(pid, SIGUSR1) == 0);
	ATF_REQUIRE(go_on(pid));
	ATF_REQUIRE(waitid(P_PID, pid, NULL, WTRAPPED | WNOWAIT) == 0);
	ATF_REQUIRE(wait6(P_PID, pid, &status, WEXITED | WNOHANG, NULL, NULL) == 0);
	ATF_REQUIRE(wait_stop(pid, SIGUSR1));
	ATF_REQUIRE(go_on(pid));
	ATF_REQUIRE(wait_exit(pid, 1));
}

/* 0 names the caller's process group. */
ATF_TC_WITHOUT_HEAD(process_group);
ATF_TC_BODY(process_group, tc)
{
	pid_t pid = start(exit_with_1);
	int status = 0;

	ATF_REQUIRE(waitpid(0, &status, 0) == pid);
	ATF_REQUIRE(status == EXITED_WITH(1));
}

/* A parent that ignores SIGCHLD, or sets SA_NOCLDWAIT, waits for all its children, and sees none. */
ATF_TC_WITHOUT_HEAD(ignored_sigchld);
ATF_TC_BODY(ignored_sigchld, tc)
{
	ATF_REQUIRE(signal(SIGCHLD, SIG_IGN) != SIG_ERR);
	(void)start(exit_with_1);
	ATF_REQUIRE_ERRNO(ECHILD, wait(NULL) == -1);
}

ATF_TC_WITHOUT_HEAD(no_zombies);
ATF_TC_BODY(no_zombies, tc)
{
	catch_with(SIGCHLD, SA_NOCLDWAIT | SA_RESTART);
	(void)start(exit_with_1);
	ATF_REQUIRE_ERRNO(ECHILD, wait(NULL) == -1);
}

/* The wait that collects a child's status takes its pending SIGCHLD along. */
ATF_TC_WITHOUT_HEAD(wait_clears_sigchld);
ATF_TC_BODY(wait_clears_sigchld, tc)
{
	sigset_t set;

	catch_with(SIGCHLD, 0);
	sigemptyset(&set);
	sigaddset(&set, SIGCHLD);
	ATF_REQUIRE(sigprocmask(SIG_BLOCK, &set, NULL) == 0);
	ATF_REQUIRE(wait_exit(start(exit_with_1), 1));
	ATF_REQUIRE(sigprocmask(SIG_UNBLOCK, &set, NULL) == 0);
	ATF_REQUIRE(caught == 0);
}

ATF_TP_ADD_TCS(tp)
{
	ATF_TP_ADD_TC(tp, exit_codes);
	ATF_TP_ADD_TC(tp, signals_in_status);
	ATF_TP_ADD_TC(tp, no_children);
	ATF_TP_ADD_TC(tp, without_hanging);
	ATF_TP_ADD_TC(tp, several_children);
	ATF_TP_ADD_TC(tp, one_of_several);
	ATF_TP_ADD_TC(tp, orphans);
	ATF_TP_ADD_TC(tp, trace_stop_without_option);
	ATF_TP_ADD_TC(tp, stops_and_continuations);
	ATF_TP_ADD_TC(tp, interrupted);
	ATF_TP_ADD_TC(tp, restarted);
	ATF_TP_ADD_TC(tp, wait3_and_wait4);
	ATF_TP_ADD_TC(tp, waitid_of_an_exit);
	ATF_TP_ADD_TC(tp, wait6_of_an_exit);
	ATF_TP_ADD_TC(tp, looking_without_collecting);
	ATF_TP_ADD_TC(tp, exits_alone);
	ATF_TP_ADD_TC(tp, process_group);
	ATF_TP_ADD_TC(tp, ignored_sigchld);
	ATF_TP_ADD_TC(tp, no_zombies);
	ATF_TP_ADD_TC(tp, wait_clears_sigchld);
	return (atf_no_error());
}
