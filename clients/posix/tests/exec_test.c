/* execve(2) and vfork(2): what a new image keeps, and the wait of a parent. */
#include "debugger.h"
#include <fcntl.h>
#include <pthread.h>

/*
 * These programs are their own second image: with two arguments, the first
 * being "image", they look at one thing and exit before main.
 */
static char *program;

static bool
is_blocked(int sig)
{
	sigset_t set;

	return (sigprocmask(SIG_BLOCK, NULL, &set) == 0 && sigismember(&set, sig) == 1);
}

static bool
is_pending(int sig)
{
	sigset_t set;

	return (sigpending(&set) == 0 && sigismember(&set, sig) == 1);
}

static void (*action_of(int sig))(int)
{
	struct sigaction sa;

	memset(&sa, 0, sizeof(sa));
	(void)sigaction(sig, NULL, &sa);
	return (sa.sa_handler);
}

static bool
image_is_right(const char *what)
{
	const char *value = getenv("IMAGE");

	if (strcmp(what, "pid") == 0)
		return (value != NULL && getpid() == atoi(value));
	if (strcmp(what, "ignored") == 0)
		return (action_of(SIGUSR1) == SIG_IGN && raise(SIGUSR1) == 0);
	if (strcmp(what, "caught") == 0)
		return (action_of(SIGUSR2) == SIG_DFL);
	if (strcmp(what, "mask") == 0)
		return (is_blocked(SIGHUP) && !is_blocked(SIGTERM));
	if (strcmp(what, "pending") == 0)
		return (is_pending(SIGHUP) && !is_pending(SIGTERM));
	return (false);
}

static __attribute__((constructor)) void
look_at_arguments(int argc, char **argv)
{
	program = argv[0];
	if (argc == 3 && strcmp(argv[1], "image") == 0)
		_exit(image_is_right(argv[2]) ? 42 : 43);
}

static const char *what;

static void
become_image(void)
{
	char number[16];

	snprintf(number, sizeof(number), "%d", (int)getpid());
	CHILD_REQUIRE(setenv("IMAGE", number, 1) == 0);
	execl(program, program, "image", what, (char *)NULL);
	_exit(CHILD_FAILED);
}

static void note(int sig) { (void)sig; }

static void
prepare_and_become_image(void)
{
	sigset_t set;

	CHILD_REQUIRE(signal(SIGUSR1, SIG_IGN) != SIG_ERR);
	CHILD_REQUIRE(signal(SIGUSR2, note) != SIG_ERR);
	sigemptyset(&set);
	sigaddset(&set, SIGHUP);
	CHILD_REQUIRE(sigprocmask(SIG_BLOCK, &set, NULL) == 0);
	CHILD_REQUIRE(raise(SIGHUP) == 0);
	become_image();
}

ATF_TC_WITHOUT_HEAD(exec_keeps_the_number);
ATF_TC_BODY(exec_keeps_the_number, tc)
{
	what = "pid";
	ATF_REQUIRE(wait_exit(start(become_image), 42));
}

ATF_TC_WITHOUT_HEAD(exec_keeps_ignored_signals);
ATF_TC_BODY(exec_keeps_ignored_signals, tc)
{
	what = "ignored";
	ATF_REQUIRE(wait_exit(start(prepare_and_become_image), 42));
}

ATF_TC_WITHOUT_HEAD(exec_resets_caught_signals);
ATF_TC_BODY(exec_resets_caught_signals, tc)
{
	what = "caught";
	ATF_REQUIRE(wait_exit(start(prepare_and_become_image), 42));
}

ATF_TC_WITHOUT_HEAD(exec_keeps_the_mask);
ATF_TC_BODY(exec_keeps_the_mask, tc)
{
	what = "mask";
	ATF_REQUIRE(wait_exit(start(prepare_and_become_image), 42));
}

ATF_TC_WITHOUT_HEAD(exec_keeps_pending_signals);
ATF_TC_BODY(exec_keeps_pending_signals, tc)
{
	what = "pending";
	ATF_REQUIRE(wait_exit(start(prepare_and_become_image), 42));
}

/* A failed exec changes nothing. */
ATF_TC_WITHOUT_HEAD(exec_fails);
ATF_TC_BODY(exec_fails, tc)
{
	ATF_REQUIRE(signal(SIGUSR2, note) != SIG_ERR);
	ATF_REQUIRE_ERRNO(ENOENT, execl("/no/such/program", "program", (char *)NULL) == -1);
	ATF_REQUIRE(action_of(SIGUSR2) == note);
}

/* The family: a list or an array, a path or a name to look for, an environment. */
static int form;

static void
run_shell(void)
{
	char name[] = "sh", option[] = "-c", command[] = "exit ${CODE:-1}", code[] = "CODE=6";
	char *arguments[] = { name, option, command, NULL }, *environment[] = { code, NULL };

	CHILD_REQUIRE(setenv("CODE", "6", 1) == 0);
	switch (form) {
	case 0: execl("/bin/sh", "sh", "-c", "exit 6", (char *)NULL); break;
	case 1: execlp("sh", "sh", "-c", "exit 6", (char *)NULL); break;
	case 2: execle("/bin/sh", "sh", "-c", "exit $CODE", (char *)NULL, environment); break;
	case 3: execv("/bin/sh", arguments); break;
	case 4: execvp("sh", arguments); break;
	default: execve("/bin/sh", arguments, environment); break;
	}
	_exit(CHILD_FAILED);
}

ATF_TC_WITHOUT_HEAD(exec_family);
ATF_TC_BODY(exec_family, tc)
{
	for (form = 0; form < 6; form++)
		ATF_REQUIRE(wait_exit(start(run_shell), 6));
}

static void *
become_image_in_a_thread(void *argument)
{
	become_image();
	return (argument);
}

static void
become_image_with_a_thread(void)
{
	pthread_t thread;

	CHILD_REQUIRE(pthread_create(&thread, NULL, become_image_in_a_thread, NULL) == 0);
	sleep_for_ever();
}

/* An exec of any thread is one of the process. */
ATF_TC_WITHOUT_HEAD(exec_of_a_thread);
ATF_TC_BODY(exec_of_a_thread, tc)
{
	what = "pid";
	ATF_REQUIRE(wait_exit(start(become_image_with_a_thread), 42));
}

/* The image is the traced process still, and its debugger sees its signals. */
ATF_TC_WITHOUT_HEAD(exec_of_traced);
ATF_TC_BODY(exec_of_traced, tc)
{
	pid_t pid;

	what = "pid";
	pid = start_traced(become_image);
	ATF_REQUIRE(go_on(pid));
	ATF_REQUIRE(wait_stop(pid, SIGTRAP));
	ATF_REQUIRE(flags(pid) & PL_FLAG_EXEC);
	ATF_REQUIRE(kill(pid, SIGTERM) == 0);
	ATF_REQUIRE(go_on(pid));
	ATF_REQUIRE(wait_stop(pid, SIGTERM));
	ATF_REQUIRE(go_on(pid));
	ATF_REQUIRE(wait_exit(pid, 42));
}

/* vfork(2) comes back in the parent once the child has gone on to another image, or has ended. */
static int ends[2];

static bool
is_empty(int fd)
{
	return (fcntl(fd, F_SETFL, O_NONBLOCK) == 0 && read(fd, &(char){ 0 }, 1) == -1 && errno == EAGAIN);
}

ATF_TC_WITHOUT_HEAD(vfork_waits_for_exit);
ATF_TC_BODY(vfork_waits_for_exit, tc)
{
	pid_t pid;

	ATF_REQUIRE(pipe(ends) == 0);
	ATF_REQUIRE((pid = vfork()) != -1);
	if (pid == 0) {
		(void)write(ends[1], "x", 1);
		_exit(5);
	}
	ATF_REQUIRE(fcntl(ends[0], F_SETFL, O_NONBLOCK) == 0);
	ATF_REQUIRE(await_release(ends[0]));
	ATF_REQUIRE(is_empty(ends[0]));
	ATF_REQUIRE(wait_exit(pid, 5));
}

ATF_TC_WITHOUT_HEAD(vfork_waits_for_exec);
ATF_TC_BODY(vfork_waits_for_exec, tc)
{
	pid_t pid;

	ATF_REQUIRE((pid = vfork()) != -1);
	if (pid == 0) {
		execl("/bin/sh", "sh", "-c", "exit 5", (char *)NULL);
		_exit(CHILD_FAILED);
	}
	ATF_REQUIRE(wait_exit(pid, 5));
}

/* The child of a vfork(2) has the memory of its parent. */
static volatile int shared = 1;

ATF_TC_WITHOUT_HEAD(vfork_shares_memory);
ATF_TC_BODY(vfork_shares_memory, tc)
{
	pid_t pid;

	ATF_REQUIRE((pid = vfork()) != -1);
	if (pid == 0) {
		shared = 2;
		_exit(5);
	}
	ATF_REQUIRE(shared == 2);
	ATF_REQUIRE(wait_exit(pid, 5));
}

ATF_TP_ADD_TCS(tp)
{
	ATF_TP_ADD_TC(tp, exec_keeps_the_number);
	ATF_TP_ADD_TC(tp, exec_keeps_ignored_signals);
	ATF_TP_ADD_TC(tp, exec_resets_caught_signals);
	ATF_TP_ADD_TC(tp, exec_keeps_the_mask);
	ATF_TP_ADD_TC(tp, exec_keeps_pending_signals);
	ATF_TP_ADD_TC(tp, exec_fails);
	ATF_TP_ADD_TC(tp, exec_family);
	ATF_TP_ADD_TC(tp, exec_of_a_thread);
	ATF_TP_ADD_TC(tp, exec_of_traced);
	ATF_TP_ADD_TC(tp, vfork_waits_for_exit);
	ATF_TP_ADD_TC(tp, vfork_waits_for_exec);
	ATF_TP_ADD_TC(tp, vfork_shares_memory);
	return (atf_no_error());
}
