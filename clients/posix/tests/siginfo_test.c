/*
 * What a signal says of itself, whoever sends others meanwhile: sigaction(2), and childproc_jobstate of
 * sys/kern/kern_exit.c. A debugger that passes on the signal of the stop passes on what it says: ptracestop of
 * sys/kern/kern_sig.c.
 */
#include "debugger.h"
#include <sys/time.h>

#define CHILDREN 3

static siginfo_t notes[16];
static volatile sig_atomic_t noted;

static void
note(int sig, siginfo_t *si, void *context)
{
	(void)context;
	if (sig == si->si_signo && noted < (int)nitems(notes))
		notes[noted++] = *si;
	else
		_exit(CHILD_FAILED);
}

static void
notes_signal(int sig)
{
	struct sigaction action = { .sa_sigaction = note, .sa_flags = SA_SIGINFO | SA_RESTART };

	CHILD_REQUIRE(sigaction(sig, &action, NULL) == 0);
}

/* It is of a child that has ended, with the code of that one: the child's number in `pids`, and 10. */
static bool
is_of_child(const siginfo_t *si, const pid_t pids[CHILDREN])
{
	for (int i = 0; i < CHILDREN; i++)
		if (si->si_pid == pids[i])
			return (si->si_signo == SIGCHLD && si->si_code == CLD_EXITED && si->si_status == 10 + i);
	fprintf(stderr, "si_pid %d, si_code %#x\n", (int)si->si_pid, si->si_code);
	return (false);
}

static void
start_children(pid_t pids[CHILDREN])
{
	for (int i = 0; i < CHILDREN; i++) {
		CHILD_REQUIRE((pids[i] = fork()) != -1);
		if (pids[i] == 0)
			_exit(10 + i);
	}
}

static void
collects_children(void)
{
	pid_t pids[CHILDREN];

	notes_signal(SIGCHLD);
	start_children(pids);
	while (wait(NULL) != -1)
		;
	CHILD_REQUIRE(errno == ECHILD && noted > 0);
	for (int i = 0; i < noted; i++)
		CHILD_REQUIRE(is_of_child(&notes[i], pids));
}

ATF_TC_WITHOUT_HEAD(handler_of_SIGCHLD);
ATF_TC_BODY(handler_of_SIGCHLD, tc)
{
	ATF_REQUIRE(wait_exit(start(collects_children), 0));
}

/* Its debugger passes on each SIGCHLD. */
ATF_TC_WITHOUT_HEAD(SIGCHLD_that_is_passed_on);
ATF_TC_BODY(SIGCHLD_that_is_passed_on, tc)
{
	pid_t pid = start_traced(collects_children);
	int status, sig = 0;

	for (;;) {
		ATF_REQUIRE(request(PT_CONTINUE, pid, sig));
		ATF_REQUIRE(waitpid(pid, &status, 0) == pid);
		if (!WIFSTOPPED(status))
			break;
		sig = WSTOPSIG(status);
		ATF_REQUIRE(sig == SIGCHLD);
	}
	ATF_REQUIRE_MSG(status == EXITED_WITH(0), "status %#x", status);
}

static sigset_t
only(int sig)
{
	sigset_t set;

	sigemptyset(&set);
	sigaddset(&set, sig);
	return (set);
}

static void
waits_for_sigchld(void)
{
	sigset_t set = only(SIGCHLD);
	pid_t pids[CHILDREN], ended;
	siginfo_t si;

	notes_signal(SIGCHLD); /* by default it is discarded as it is sent */
	CHILD_REQUIRE(sigprocmask(SIG_BLOCK, &set, NULL) == 0);
	start_children(pids);
	while ((ended = waitpid(-1, NULL, WNOHANG)) != -1)
		if (ended == 0)
			CHILD_REQUIRE(sigwaitinfo(&set, &si) == SIGCHLD && is_of_child(&si, pids));
	CHILD_REQUIRE(errno == ECHILD && noted == 0);
}

ATF_TC_WITHOUT_HEAD(sigwaitinfo_of_SIGCHLD);
ATF_TC_BODY(sigwaitinfo_of_SIGCHLD, tc)
{
	ATF_REQUIRE(wait_exit(start(waits_for_sigchld), 0));
}

static pid_t debugger;

static void
waits_for_usr1(void)
{
	const struct timespec hour = { 3600, 0 };
	sigset_t set = only(SIGUSR1);
	siginfo_t si;

	CHILD_REQUIRE(sigprocmask(SIG_BLOCK, &set, NULL) == 0);
	CHILD_REQUIRE(raise(SIGUSR2) == 0);
	CHILD_REQUIRE(sigtimedwait(&set, &si, &hour) == SIGUSR1);
	CHILD_REQUIRE(si.si_signo == SIGUSR1 && si.si_code == SI_USER && si.si_pid == debugger);
}

/* A signal that is waited for, and that the debugger has sent and passes on. */
ATF_TC_WITHOUT_HEAD(sigtimedwait_under_a_debugger);
ATF_TC_BODY(sigtimedwait_under_a_debugger, tc)
{
	pid_t pid;

	debugger = getpid();
	pid = start_traced(waits_for_usr1);
	ATF_REQUIRE(go_on(pid) && wait_stop(pid, SIGUSR2));
	ATF_REQUIRE(kill(pid, SIGUSR1) == 0);
	ATF_REQUIRE(go_on(pid) && wait_stop(pid, SIGUSR1));
	ATF_REQUIRE(request(PT_CONTINUE, pid, SIGUSR1) && wait_exit(pid, 0));
}

static void
is_signalled_twice(void)
{
	notes_signal(SIGUSR1);
	CHILD_REQUIRE(raise(SIGUSR2) == 0);
	while (noted < 2)
		sigsuspend(&(sigset_t){ 0 });
	CHILD_REQUIRE(notes[0].si_code == SI_USER && notes[1].si_code == SI_USER);
	CHILD_REQUIRE(notes[0].si_pid > 0 && notes[1].si_pid > 0 && notes[0].si_pid != notes[1].si_pid);
	CHILD_REQUIRE(notes[0].si_pid == debugger || notes[1].si_pid == debugger);
}

/* A process signals another one, and ends. */
static void
signal_by_another(pid_t pid)
{
	pid_t other = fork();

	ATF_REQUIRE(other != -1);
	if (other == 0)
		_exit(kill(pid, SIGUSR1));
	ATF_REQUIRE(wait_exit(other, 0));
}

/* Another signal of the same number comes before the first one's handler runs: each has its sender. */
ATF_TC_WITHOUT_HEAD(passed_on_while_another_comes);
ATF_TC_BODY(passed_on_while_another_comes, tc)
{
	pid_t pid;

	debugger = getpid();
	pid = start_traced(is_signalled_twice);
	ATF_REQUIRE(go_on(pid) && wait_stop(pid, SIGUSR2));
	ATF_REQUIRE(kill(pid, SIGUSR1) == 0);
	ATF_REQUIRE(go_on(pid) && wait_stop(pid, SIGUSR1));
	signal_by_another(pid);
	ATF_REQUIRE(request(PT_CONTINUE, pid, SIGUSR1) && wait_stop(pid, SIGUSR1));
	ATF_REQUIRE(request(PT_CONTINUE, pid, SIGUSR1) && wait_exit(pid, 0));
}

ATF_TP_ADD_TCS(tp)
{
	ATF_TP_ADD_TC(tp, handler_of_SIGCHLD);
	ATF_TP_ADD_TC(tp, SIGCHLD_that_is_passed_on);
	ATF_TP_ADD_TC(tp, sigwaitinfo_of_SIGCHLD);
	ATF_TP_ADD_TC(tp, sigtimedwait_under_a_debugger);
	ATF_TP_ADD_TC(tp, passed_on_while_another_comes);
	return (atf_no_error());
}
