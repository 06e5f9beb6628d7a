/* Calls that wait for others: pipes, poll(2), select(2), sleeps and timers. */
#include "debugger.h"
#include <sys/select.h>
#include <sys/socket.h>
#include <sys/time.h>
#include <fcntl.h>
#include <poll.h>
#include <time.h>

static int ends[2];

static void
write_three(void)
{
	for (int i = 0; i < 3; i++)
		CHILD_REQUIRE(write(ends[1], &"abc"[i], 1) == 1);
}

/* What is written is read, in its order; the end of the last writer is the end of the file. */
ATF_TC_WITHOUT_HEAD(pipe_in_order);
ATF_TC_BODY(pipe_in_order, tc)
{
	char bytes[4] = "";

	ATF_REQUIRE(pipe(ends) == 0);
	(void)start(write_three);
	close(ends[1]);
	for (int i = 0; i < 3; i++)
		ATF_REQUIRE(read(ends[0], bytes + i, 1) == 1);
	ATF_REQUIRE(strcmp(bytes, "abc") == 0);
	ATF_REQUIRE(read(ends[0], bytes, 1) == 0);
	ATF_REQUIRE(wait(NULL) > 0);
}

static void
wait_for_killing(void)
{
	close(ends[0]);
	sleep_for_ever();
}

/* A killed writer closes its end as well. */
ATF_TC_WITHOUT_HEAD(pipe_of_a_killed_process);
ATF_TC_BODY(pipe_of_a_killed_process, tc)
{
	char byte;
	pid_t pid;

	ATF_REQUIRE(pipe(ends) == 0);
	pid = start(wait_for_killing);
	close(ends[1]);
	ATF_REQUIRE(kill(pid, SIGKILL) == 0);
	ATF_REQUIRE(read(ends[0], &byte, 1) == 0);
	ATF_REQUIRE(wait_signaled(pid, SIGKILL));
}

static volatile sig_atomic_t caught;
static void note(int sig) { caught = sig; }

static void
catch_with(int sig, int flags)
{
	struct sigaction sa;

	memset(&sa, 0, sizeof(sa));
	sa.sa_handler = note;
	sa.sa_flags = flags;
	sigemptyset(&sa.sa_mask);
	ATF_REQUIRE(sigaction(sig, &sa, NULL) == 0);
}

/* A pipe without a reader: SIGPIPE, and EPIPE. */
static void
write_without_reader(void)
{
	(void)write(ends[1], "x", 1);
	_exit(1);
}

ATF_TC_WITHOUT_HEAD(broken_pipe);
ATF_TC_BODY(broken_pipe, tc)
{
	ATF_REQUIRE(pipe(ends) == 0);
	close(ends[0]);
	ATF_REQUIRE(wait_signaled(start(write_without_reader), SIGPIPE));
	catch_with(SIGPIPE, 0);
	ATF_REQUIRE_ERRNO(EPIPE, write(ends[1], "x", 1) == -1);
	ATF_REQUIRE(caught == SIGPIPE);
	ATF_REQUIRE(signal(SIGPIPE, SIG_IGN) != SIG_ERR);
	ATF_REQUIRE_ERRNO(EPIPE, write(ends[1], "x", 1) == -1);
}

/* A read is interrupted by a caught signal, or goes on under SA_RESTART. */
static void
signal_for_ever(void)
{
	for (;;) {
		CHILD_REQUIRE(kill(getppid(), SIGUSR1) == 0);
		usleep(1000);
	}
}

ATF_TC_WITHOUT_HEAD(read_interrupted);
ATF_TC_BODY(read_interrupted, tc)
{
	char byte;
	pid_t pid;

	catch_with(SIGUSR1, 0);
	ATF_REQUIRE(pipe(ends) == 0);
	pid = start(signal_for_ever);
	ATF_REQUIRE_ERRNO(EINTR, read(ends[0], &byte, 1) == -1);
	ATF_REQUIRE(caught == SIGUSR1);
	ATF_REQUIRE(signal(SIGUSR1, SIG_IGN) != SIG_ERR);
	ATF_REQUIRE(kill(pid, SIGKILL) == 0);
	ATF_REQUIRE(wait_signaled(pid, SIGKILL));
}

static void
signal_and_write(void)
{
	CHILD_REQUIRE(kill(getppid(), SIGUSR1) == 0);
	usleep(1000);
	CHILD_REQUIRE(write(ends[1], "y", 1) == 1);
}

ATF_TC_WITHOUT_HEAD(read_restarted);
ATF_TC_BODY(read_restarted, tc)
{
	char byte = 0;

	catch_with(SIGUSR1, SA_RESTART);
	ATF_REQUIRE(pipe(ends) == 0);
	(void)start(signal_and_write);
	ATF_REQUIRE(read(ends[0], &byte, 1) == 1 && byte == 'y');
	ATF_REQUIRE(caught == SIGUSR1);
	ATF_REQUIRE(wait(NULL) > 0);
}

/* A full pipe makes its writer wait. One that doesn't block gets EAGAIN. */
static void
read_until_end(void)
{
	char bytes[4096];
	ssize_t n;

	close(ends[1]);
	while ((n = read(ends[0], bytes, sizeof(bytes))) > 0)
		;
	_exit(n == 0 ? 7 : 8);
}

ATF_TC_WITHOUT_HEAD(full_pipe);
ATF_TC_BODY(full_pipe, tc)
{
	static char bytes[4096];
	ssize_t n;
	pid_t pid;

	ATF_REQUIRE(pipe(ends) == 0);
	ATF_REQUIRE(fcntl(ends[1], F_SETFL, O_NONBLOCK) == 0);
	while ((n = write(ends[1], bytes, sizeof(bytes))) > 0)
		;
	ATF_REQUIRE(n == -1 && errno == EAGAIN);
	ATF_REQUIRE(fcntl(ends[1], F_SETFL, 0) == 0);
	pid = start(read_until_end);
	close(ends[0]);
	ATF_REQUIRE(write(ends[1], bytes, sizeof(bytes)) == sizeof(bytes));
	close(ends[1]);
	ATF_REQUIRE(wait_exit(pid, 7));
}

/* Both ends of a socket pair read and write. */
ATF_TC_WITHOUT_HEAD(socket_pair);
ATF_TC_BODY(socket_pair, tc)
{
	char byte = 0;

	ATF_REQUIRE(socketpair(AF_UNIX, SOCK_STREAM, 0, ends) == 0);
	ATF_REQUIRE(write(ends[0], "a", 1) == 1 && write(ends[1], "b", 1) == 1);
	ATF_REQUIRE(read(ends[0], &byte, 1) == 1 && byte == 'b');
	ATF_REQUIRE(read(ends[1], &byte, 1) == 1 && byte == 'a');
	close(ends[0]);
	ATF_REQUIRE(read(ends[1], &byte, 1) == 0);
}

/* poll(2): nothing, a time that is over, a byte, an end. */
static void
write_later(void)
{
	usleep(10000);
	CHILD_REQUIRE(write(ends[1], "x", 1) == 1);
}

ATF_TC_WITHOUT_HEAD(poll_waits);
ATF_TC_BODY(poll_waits, tc)
{
	struct pollfd fds;
	char byte;

	ATF_REQUIRE(pipe(ends) == 0);
	fds = (struct pollfd){ .fd = ends[0], .events = POLLIN };
	ATF_REQUIRE(poll(&fds, 1, 0) == 0);
	ATF_REQUIRE(poll(&fds, 1, 10) == 0);
	(void)start(write_later);
	ATF_REQUIRE(poll(&fds, 1, -1) == 1 && (fds.revents & POLLIN));
	ATF_REQUIRE(read(ends[0], &byte, 1) == 1);
	ATF_REQUIRE(wait(NULL) > 0);
	close(ends[1]);
	ATF_REQUIRE(poll(&fds, 1, -1) == 1 && (fds.revents & POLLHUP));
}

ATF_TC_WITHOUT_HEAD(select_waits);
ATF_TC_BODY(select_waits, tc)
{
	struct timeval timeout = { .tv_usec = 10000 };
	fd_set set;

	ATF_REQUIRE(pipe(ends) == 0);
	FD_ZERO(&set);
	FD_SET(ends[0], &set);
	ATF_REQUIRE(select(ends[0] + 1, &set, NULL, NULL, &timeout) == 0);
	ATF_REQUIRE(!FD_ISSET(ends[0], &set));
	(void)start(write_later);
	FD_SET(ends[0], &set);
	ATF_REQUIRE(select(ends[0] + 1, &set, NULL, NULL, NULL) == 1);
	ATF_REQUIRE(FD_ISSET(ends[0], &set));
	ATF_REQUIRE(wait(NULL) > 0);
}

/* A sleep lasts, or says what was left of it when a signal woke it. */
ATF_TC_WITHOUT_HEAD(sleep_lasts);
ATF_TC_BODY(sleep_lasts, tc)
{
	struct timespec before, after, nap = { .tv_nsec = 20000000 }, left;

	ATF_REQUIRE(clock_gettime(CLOCK_MONOTONIC, &before) == 0);
	ATF_REQUIRE(nanosleep(&nap, &left) == 0);
	ATF_REQUIRE(clock_gettime(CLOCK_MONOTONIC, &after) == 0);
	ATF_REQUIRE((after.tv_sec - before.tv_sec) * 1000000000LL + after.tv_nsec - before.tv_nsec >= nap.tv_nsec);
}

static const struct itimerval every_10_ms = { .it_value = { .tv_usec = 10000 }, .it_interval = { .tv_usec = 10000 } };
static const struct itimerval off;

ATF_TC_WITHOUT_HEAD(sleep_interrupted);
ATF_TC_BODY(sleep_interrupted, tc)
{
	struct timespec nap = { .tv_sec = 1000 }, left = { 0, 0 };

	/* A single ring might come before the sleep. */
	catch_with(SIGALRM, SA_RESTART);
	ATF_REQUIRE(setitimer(ITIMER_REAL, &every_10_ms, NULL) == 0);
	ATF_REQUIRE_ERRNO(EINTR, nanosleep(&nap, &left) == -1);
	ATF_REQUIRE(setitimer(ITIMER_REAL, &off, NULL) == 0);
	ATF_REQUIRE(caught == SIGALRM);
	/* All of it, if the signal has come as the sleep began. */
	ATF_REQUIRE(left.tv_sec >= 900 && (left.tv_sec < nap.tv_sec || (left.tv_sec == nap.tv_sec && left.tv_nsec == 0)));
}

/* A timer rings again and again. */
static volatile sig_atomic_t rings;
static void ring(int sig) { rings += sig == SIGALRM; }

ATF_TC_WITHOUT_HEAD(timer_repeats);
ATF_TC_BODY(timer_repeats, tc)
{
	sigset_t set, old;

	ATF_REQUIRE(signal(SIGALRM, ring) != SIG_ERR);
	sigemptyset(&set);
	sigaddset(&set, SIGALRM);
	ATF_REQUIRE(sigprocmask(SIG_BLOCK, &set, &old) == 0);
	ATF_REQUIRE(setitimer(ITIMER_REAL, &every_10_ms, NULL) == 0);
	while (rings < 3)
		sigsuspend(&old);
	ATF_REQUIRE(setitimer(ITIMER_REAL, &off, NULL) == 0);
}

/* exit(3) lets go a process's pipes before its parent is told. */
ATF_TC_WITHOUT_HEAD(pipe_of_a_process_that_exits);
ATF_TC_BODY(pipe_of_a_process_that_exits, tc)
{
	char byte;
	int status;
	pid_t pid;

	ATF_REQUIRE(pipe(ends) == 0);
	ATF_REQUIRE((pid = fork()) != -1);
	if (pid == 0) {
		close(ends[0]);
		CHILD_REQUIRE(write(ends[1], "x", 1) == 1);
		exit(3);
	}
	ATF_REQUIRE(close(ends[1]) == 0);
	ATF_REQUIRE(read(ends[0], &byte, 1) == 1);
	ATF_REQUIRE(read(ends[0], &byte, 1) == 0);
	ATF_REQUIRE(waitpid(pid, &status, 0) == pid);
	ATF_REQUIRE(WIFEXITED(status) && WEXITSTATUS(status) == 3);
}

ATF_TP_ADD_TCS(tp)
{
	ATF_TP_ADD_TC(tp, pipe_in_order);
	ATF_TP_ADD_TC(tp, pipe_of_a_process_that_exits);
	ATF_TP_ADD_TC(tp, pipe_of_a_killed_process);
	ATF_TP_ADD_TC(tp, broken_pipe);
	ATF_TP_ADD_TC(tp, read_interrupted);
	ATF_TP_ADD_TC(tp, read_restarted);
	ATF_TP_ADD_TC(tp, full_pipe);
	ATF_TP_ADD_TC(tp, socket_pair);
	ATF_TP_ADD_TC(tp, poll_waits);
	ATF_TP_ADD_TC(tp, select_waits);
	ATF_TP_ADD_TC(tp, sleep_lasts);
	ATF_TP_ADD_TC(tp, sleep_interrupted);
	ATF_TP_ADD_TC(tp, timer_repeats);
	return (atf_no_error());
}
