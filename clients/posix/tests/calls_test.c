/* What programs call besides: handlers, threads' locks, pipes, time, memory. */
#include <sys/mman.h>
#include <sys/resource.h>
#include <sys/select.h>
#include <sys/time.h>
#include <assert.h>
#include <poll.h>
#include <pthread.h>
#include <semaphore.h>
#include <stdint.h>
#include <time.h>
#include "cases.h"

static volatile sig_atomic_t order[8], count;

static void
note(int sig)
{

	order[count++] = sig;
}

static void
outer(int sig)
{
	sigset_t now;

	ATF_REQUIRE_EQ(sigprocmask(SIG_BLOCK, NULL, &now), 0);
	ATF_REQUIRE(sigismember(&now, sig) == 1 && sigismember(&now, SIGUSR2) == 1 && sigismember(&now, SIGHUP) == 0);
	raise(SIGUSR2); /* blocked here */
	raise(SIGHUP);
	note(sig);
}

ATF_TC_WITHOUT_HEAD(masks_of_handlers);
ATF_TC_BODY(masks_of_handlers, tc)
{
	struct sigaction act;

	memset(&act, 0, sizeof(act));
	act.sa_handler = outer;
	sigaddset(&act.sa_mask, SIGUSR2);
	ATF_REQUIRE_EQ(sigaction(SIGUSR1, &act, NULL), 0);
	ATF_REQUIRE(signal(SIGUSR2, note) != SIG_ERR && signal(SIGHUP, note) != SIG_ERR);
	raise(SIGUSR1);
	ATF_REQUIRE(count == 3 && order[0] == SIGHUP && order[1] == SIGUSR1 && order[2] == SIGUSR2);
}

static void
note_info(int sig, siginfo_t *info, void *context)
{

	(void)context;
	ATF_REQUIRE_EQ(info->si_signo, sig);
	note(sig);
}

ATF_TC_WITHOUT_HEAD(flags_of_sigaction);
ATF_TC_BODY(flags_of_sigaction, tc)
{
	struct sigaction act, old;

	memset(&act, 0, sizeof(act));
	act.sa_sigaction = note_info;
	act.sa_flags = SA_SIGINFO | SA_RESETHAND;
	ATF_REQUIRE_EQ(sigaction(SIGUSR1, &act, NULL), 0);
	raise(SIGUSR1);
	ATF_REQUIRE(count == 1 && order[0] == SIGUSR1);
	ATF_REQUIRE_EQ(sigaction(SIGUSR1, NULL, &old), 0);
	ATF_REQUIRE(old.sa_handler == SIG_DFL);
}

ATF_TC_WITHOUT_HEAD(sigwait_takes_one);
ATF_TC_BODY(sigwait_takes_one, tc)
{
	struct timespec soon = { 1, 0 };
	sigset_t set, pending;
	pid_t pid, parent = getpid();
	int sig;

	sigemptyset(&set);
	sigaddset(&set, SIGUSR1);
	sigaddset(&set, SIGUSR2);
	ATF_REQUIRE_EQ(sigprocmask(SIG_BLOCK, &set, NULL), 0);
	ATF_REQUIRE_ERRNO(EAGAIN, sigtimedwait(&set, NULL, &soon) == -1);
	ATF_REQUIRE((pid = fork()) != -1);
	if (pid == 0)
		_exit(kill(parent, SIGUSR2));
	ATF_REQUIRE_EQ(sigwait(&set, &sig), 0);
	ATF_REQUIRE_EQ(sig, SIGUSR2);
	exited(pid, 0);
	raise(SIGUSR1);
	ATF_REQUIRE_EQ(sigpending(&pending), 0);
	ATF_REQUIRE(sigismember(&pending, SIGUSR1) == 1 && sigismember(&pending, SIGUSR2) == 0);
	ATF_REQUIRE_EQ(sigwait(&set, &sig), 0);
	ATF_REQUIRE_EQ(sig, SIGUSR1);
}

ATF_TC_WITHOUT_HEAD(alarms);
ATF_TC_BODY(alarms, tc)
{
	struct itimerval every = { { 60, 0 }, { 60, 0 } }, none = { { 0, 0 }, { 0, 0 } };
	sigset_t set, old;

	ATF_REQUIRE(signal(SIGALRM, note) != SIG_ERR);
	sigemptyset(&set);
	sigaddset(&set, SIGALRM);
	ATF_REQUIRE_EQ(sigprocmask(SIG_BLOCK, &set, &old), 0);
	ATF_REQUIRE_EQ(alarm(3600), 0);
	ATF_REQUIRE_ERRNO(EINTR, sigsuspend(&old) == -1);
	ATF_REQUIRE_EQ(setitimer(ITIMER_REAL, &every, NULL), 0);
	while (count < 3)
		sigsuspend(&old);
	ATF_REQUIRE_EQ(setitimer(ITIMER_REAL, &none, NULL), 0);
	ATF_REQUIRE_EQ(alarm(0), 0);
}

ATF_TC_WITHOUT_HEAD(sleeps);
ATF_TC_BODY(sleeps, tc)
{
	struct timespec before, after, hour = { 3600, 0 }, left;

	ATF_REQUIRE_EQ(clock_gettime(CLOCK_MONOTONIC, &before), 0);
	ATF_REQUIRE_EQ(nanosleep(&hour, NULL), 0);
	ATF_REQUIRE_EQ(clock_gettime(CLOCK_MONOTONIC, &after), 0);
	ATF_REQUIRE(after.tv_sec - before.tv_sec >= 3599);
	ATF_REQUIRE(signal(SIGALRM, note) != SIG_ERR);
	alarm(60);
	if (nanosleep(&hour, &left) == 0)
		ATF_REQUIRE_EQ(count, 1); /* it rang before */
	else
		ATF_REQUIRE(errno == EINTR && left.tv_sec >= 3500 && left.tv_sec <= 3600);
}

/* The numbers are those of clock_gettime(2). */
ATF_TC_WITHOUT_HEAD(clocks);
ATF_TC_BODY(clocks, tc)
{
	static const int numbers[] = { 0, 2, 4, 5, 7, 8, 9, 10, 11, 12, 14, 15 };
	struct timespec now, step;
	pthread_condattr_t attributes;
	clockid_t clock;

	for (size_t i = 0; i < nitems(numbers); i++) {
		ATF_REQUIRE_EQ(clock_gettime(numbers[i], &now), 0);
		ATF_REQUIRE_EQ(clock_getres(numbers[i], &step), 0);
		ATF_REQUIRE(step.tv_sec == 0 && step.tv_nsec > 0);
	}
	ATF_REQUIRE_ERRNO(EINVAL, clock_gettime(1000, &now) == -1);
	ATF_REQUIRE_ERRNO(EINVAL, clock_getres(1000, &step) == -1);
	ATF_REQUIRE_EQ(pthread_condattr_init(&attributes), 0);
	ATF_REQUIRE_EQ(pthread_condattr_getclock(&attributes, &clock), 0);
	ATF_REQUIRE_EQ(clock, CLOCK_REALTIME);
	ATF_REQUIRE_EQ(pthread_condattr_setclock(&attributes, CLOCK_MONOTONIC), 0);
	ATF_REQUIRE_EQ(pthread_condattr_getclock(&attributes, &clock), 0);
	ATF_REQUIRE_EQ(clock, CLOCK_MONOTONIC);
	ATF_REQUIRE_EQ(pthread_condattr_setclock(&attributes, 1000), EINVAL);
}

/* The numbers are those of getrlimit(2). */
ATF_TC_WITHOUT_HEAD(limits);
ATF_TC_BODY(limits, tc)
{
	struct rlimit limit = { 20, 20 }, got;
	int fd;

	ATF_REQUIRE_EQ(setrlimit(RLIMIT_NOFILE, &limit), 0);
	ATF_REQUIRE_EQ(getrlimit(RLIMIT_NOFILE, &got), 0);
	ATF_REQUIRE(got.rlim_cur == 20 && got.rlim_max == 20);
	while ((fd = dup(0)) != -1)
		ATF_REQUIRE(fd < 20);
	ATF_REQUIRE_EQ(errno, EMFILE);
	ATF_REQUIRE_EQ(getrlimit(RLIMIT_FSIZE, &got), 0);
	ATF_REQUIRE(got.rlim_cur <= RLIM_INFINITY && got.rlim_max <= RLIM_INFINITY);
	ATF_REQUIRE_EQ(setrlimit(RLIMIT_FSIZE, &got), 0);
	ATF_REQUIRE_EQ(getrlimit(RLIMIT_FSIZE, &limit), 0);
	ATF_REQUIRE(limit.rlim_cur == got.rlim_cur && limit.rlim_max == got.rlim_max);
	ATF_REQUIRE_ERRNO(EINVAL, getrlimit(RLIM_NLIMITS + 100, &got) == -1);
}

static pthread_mutex_t mutex = PTHREAD_MUTEX_INITIALIZER;
static pthread_cond_t changed = PTHREAD_COND_INITIALIZER;
static int queue, taken;

static void *
take(void *arg)
{
	int i;

	for (i = 0; i < 5; i++) {
		pthread_mutex_lock(&mutex);
		while (queue == 0)
			pthread_cond_wait(&changed, &mutex);
		queue--;
		taken++;
		pthread_cond_broadcast(&changed);
		pthread_mutex_unlock(&mutex);
	}
	return (arg);
}

ATF_TC_WITHOUT_HEAD(mutex_and_condition);
ATF_TC_BODY(mutex_and_condition, tc)
{
	pthread_t t;
	int i;

	ATF_REQUIRE_EQ(pthread_create(&t, NULL, take, NULL), 0);
	for (i = 0; i < 5; i++) {
		pthread_mutex_lock(&mutex);
		while (queue != 0)
			pthread_cond_wait(&changed, &mutex);
		queue++;
		pthread_cond_broadcast(&changed);
		pthread_mutex_unlock(&mutex);
	}
	ATF_REQUIRE_EQ(pthread_join(t, NULL), 0);
	ATF_REQUIRE_EQ(taken, 5);
}

static pthread_barrier_t barrier;
static pthread_rwlock_t rwlock = PTHREAD_RWLOCK_INITIALIZER;
static sem_t semaphore;
static volatile int arrived;

static void *
arrive(void *arg)
{

	pthread_rwlock_wrlock(&rwlock);
	arrived++;
	pthread_rwlock_unlock(&rwlock);
	pthread_barrier_wait(&barrier);
	pthread_rwlock_rdlock(&rwlock);
	if (arrived != 3)
		arrived = -1000;
	pthread_rwlock_unlock(&rwlock);
	sem_post(&semaphore);
	return (arg);
}

ATF_TC_WITHOUT_HEAD(barriers_and_semaphores);
ATF_TC_BODY(barriers_and_semaphores, tc)
{
	pthread_t t[2];
	int i;

	ATF_REQUIRE_EQ(pthread_barrier_init(&barrier, NULL, 3), 0);
	ATF_REQUIRE_EQ(sem_init(&semaphore, 0, 0), 0);
	for (i = 0; i < 2; i++)
		ATF_REQUIRE_EQ(pthread_create(&t[i], NULL, arrive, NULL), 0);
	arrive(NULL);
	for (i = 0; i < 3; i++)
		sem_wait(&semaphore);
	ATF_REQUIRE_EQ(arrived, 3);
	for (i = 0; i < 2; i++)
		ATF_REQUIRE_EQ(pthread_join(t[i], NULL), 0);
}

static void *
wait_for_signal(void *arg)
{

	while (count == 0)
		usleep(1000);
	return (arg);
}

ATF_TC_WITHOUT_HEAD(signals_to_threads);
ATF_TC_BODY(signals_to_threads, tc)
{
	pthread_t t;

	ATF_REQUIRE(signal(SIGUSR1, note) != SIG_ERR);
	ATF_REQUIRE_EQ(pthread_create(&t, NULL, wait_for_signal, NULL), 0);
	ATF_REQUIRE_EQ(pthread_kill(t, SIGUSR1), 0);
	ATF_REQUIRE_EQ(pthread_join(t, NULL), 0);
	ATF_REQUIRE_EQ(count, 1);
}

static void *
fork_there(void *arg)
{
	pid_t pid;
	int status;

	CHILD_REQUIRE((pid = fork()) != -1);
	if (pid == 0)
		_exit(3);
	CHILD_REQUIRE(waitpid(pid, &status, 0) == pid && WEXITSTATUS(status) == 3);
	return (arg);
}

ATF_TC_WITHOUT_HEAD(fork_in_a_thread);
ATF_TC_BODY(fork_in_a_thread, tc)
{
	pthread_t t;

	ATF_REQUIRE_EQ(pthread_create(&t, NULL, fork_there, NULL), 0);
	fork_there(NULL);
	ATF_REQUIRE_EQ(pthread_join(t, NULL), 0);
}

/* More than a pipe holds: reader and writer wait for each other. */
ATF_TC_WITHOUT_HEAD(pipes);
ATF_TC_BODY(pipes, tc)
{
	static char buffer[1 << 20];
	size_t total = 0;
	ssize_t got;
	pid_t pid;
	int ends[2];

	ATF_REQUIRE_EQ(pipe(ends), 0);
	ATF_REQUIRE((pid = fork()) != -1);
	if (pid == 0) {
		close(ends[0]);
		_exit(write(ends[1], buffer, sizeof(buffer)) == (ssize_t)sizeof(buffer) ? 0 : 1);
	}
	close(ends[1]);
	while ((got = read(ends[0], buffer, 65536)) > 0)
		total += got;
	ATF_REQUIRE_EQ(got, 0);
	ATF_REQUIRE_EQ(total, sizeof(buffer));
	exited(pid, 0);
}

ATF_TC_WITHOUT_HEAD(broken_pipes);
ATF_TC_BODY(broken_pipes, tc)
{
	pid_t pid;
	int ends[2];

	ATF_REQUIRE_EQ(pipe(ends), 0);
	close(ends[0]);
	ATF_REQUIRE((pid = fork()) != -1);
	if (pid == 0) {
		signal(SIGPIPE, SIG_IGN);
		CHILD_REQUIRE(write(ends[1], "x", 1) == -1 && errno == EPIPE);
		signal(SIGPIPE, SIG_DFL);
		if (write(ends[1], "x", 1) == -1)
			_exit(9);
		_exit(8);
	}
	killed(pid, SIGPIPE);
}

ATF_TC_WITHOUT_HEAD(polls);
ATF_TC_BODY(polls, tc)
{
	struct timeval minute = { 60, 0 };
	struct pollfd ready;
	fd_set set;
	pid_t pid;
	int ends[2];

	ATF_REQUIRE_EQ(pipe(ends), 0);
	ready.fd = ends[0];
	ready.events = POLLIN;
	ATF_REQUIRE_EQ(poll(&ready, 1, 0), 0);
	ATF_REQUIRE_EQ(poll(&ready, 1, 60000), 0);
	FD_ZERO(&set);
	FD_SET(ends[0], &set);
	ATF_REQUIRE_EQ(select(ends[0] + 1, &set, NULL, NULL, &minute), 0);
	ATF_REQUIRE((pid = fork()) != -1);
	if (pid == 0)
		_exit(write(ends[1], "x", 1) == 1 ? 0 : 1);
	ATF_REQUIRE_EQ(poll(&ready, 1, -1), 1);
	FD_SET(ends[0], &set);
	ATF_REQUIRE_EQ(select(ends[0] + 1, &set, NULL, NULL, NULL), 1);
	ATF_REQUIRE(FD_ISSET(ends[0], &set));
	exited(pid, 0);
}

/* ---- memory */

static volatile int word = 42;

static void
show_word(void)
{

	_exit(word);
}

ATF_TC_WITHOUT_HEAD(memory_of_a_process);
ATF_TC_BODY(memory_of_a_process, tc)
{
	struct ptrace_io_desc io;
	pid_t pid = traced_child(show_word);
	int got = 0;

	errno = 0;
	ATF_REQUIRE_EQ(ptrace(PT_READ_D, pid, (caddr_t)(uintptr_t)&word, 0), 42);
	ATF_REQUIRE_EQ(ptrace(PT_WRITE_D, pid, (caddr_t)(uintptr_t)&word, 43), 0);
	io.piod_op = PIOD_READ_D;
	io.piod_offs = (void *)(uintptr_t)&word;
	io.piod_addr = &got;
	io.piod_len = sizeof(got);
	ATF_REQUIRE_EQ(ptrace(PT_IO, pid, (caddr_t)&io, 0), 0);
	ATF_REQUIRE(got == 43 && io.piod_len == sizeof(got));
	ATF_REQUIRE_EQ(word, 42);
	go_on(pid);
	exited(pid, 43);
}

static __attribute__((noinline)) void
landmark(void)
{

	__asm__ volatile(".globl here\nhere: nop");
}

extern char here[];

static void
pass_landmark(void)
{

	landmark();
	_exit(1);
}

/* A breakpoint is an instruction that the debugger has written. */
ATF_TC_WITHOUT_HEAD(breakpoints);
ATF_TC_BODY(breakpoints, tc)
{
	pid_t pid = traced_child(pass_landmark);
	int text;

	errno = 0;
	text = ptrace(PT_READ_I, pid, here, 0);
	ATF_REQUIRE_EQ(errno, 0);
	ATF_REQUIRE_EQ(ptrace(PT_WRITE_I, pid, here, (text & ~0xff) | 0xcc), 0);
	go_on(pid);
	stopped_by(pid, SIGTRAP);
	ATF_REQUIRE_EQ(ptrace(PT_WRITE_I, pid, here, text), 0);
	go_on(pid);
	exited(pid, 1);
}

static void
segment_fault(void)
{

	*(volatile int *)(uintptr_t)(count * 4 + 16) = 1;
}

ATF_TC_WITHOUT_HEAD(faults);
ATF_TC_BODY(faults, tc)
{
	pid_t pid = traced_child(segment_fault);

	go_on(pid);
	stopped_by(pid, SIGSEGV);
	resume(PT_CONTINUE, pid, SIGSEGV);
	killed(pid, SIGSEGV);
	ATF_REQUIRE((pid = fork()) != -1);
	if (pid == 0)
		abort();
	killed(pid, SIGABRT);
}

static void
spin(void)
{
	volatile unsigned i;

	for (i = 0;; i++)
		;
}

/* A process that asks the system for nothing is stopped all the same. */
ATF_TC_WITHOUT_HEAD(computation);
ATF_TC_BODY(computation, tc)
{
	pid_t pid = child(spin);

	attach(pid);
	go_on(pid);
	ATF_REQUIRE_EQ(kill(pid, SIGTERM), 0);
	stopped_by(pid, SIGTERM);
	resume(PT_DETACH, pid, 0);
	ATF_REQUIRE_EQ(kill(pid, SIGKILL), 0);
	killed(pid, SIGKILL);
}

ATF_TC_WITHOUT_HEAD(shared_memory);
ATF_TC_BODY(shared_memory, tc)
{
	volatile int *turn;
	pid_t pid;

	turn = mmap(NULL, 4096, PROT_READ | PROT_WRITE, MAP_SHARED | MAP_ANON, -1, 0);
	ATF_REQUIRE(turn != MAP_FAILED);
	ATF_REQUIRE((pid = fork()) != -1);
	if (pid == 0) {
		while (*turn == 0)
			usleep(1000);
		_exit(*turn);
	}
	*turn = 5;
	exited(pid, 5);
}

ATF_TP_ADD_TCS(tp)
{

	ATF_TP_ADD_TC(tp, masks_of_handlers);
	ATF_TP_ADD_TC(tp, flags_of_sigaction);
	ATF_TP_ADD_TC(tp, sigwait_takes_one);
	ATF_TP_ADD_TC(tp, alarms);
	ATF_TP_ADD_TC(tp, sleeps);
	ATF_TP_ADD_TC(tp, clocks);
	ATF_TP_ADD_TC(tp, limits);
	ATF_TP_ADD_TC(tp, mutex_and_condition);
	ATF_TP_ADD_TC(tp, barriers_and_semaphores);
	ATF_TP_ADD_TC(tp, signals_to_threads);
	ATF_TP_ADD_TC(tp, fork_in_a_thread);
	ATF_TP_ADD_TC(tp, pipes);
	ATF_TP_ADD_TC(tp, broken_pipes);
	ATF_TP_ADD_TC(tp, polls);
	ATF_TP_ADD_TC(tp, memory_of_a_process);
	ATF_TP_ADD_TC(tp, breakpoints);
	ATF_TP_ADD_TC(tp, faults);
	ATF_TP_ADD_TC(tp, computation);
	ATF_TP_ADD_TC(tp, shared_memory);
	return (atf_no_error());
}
