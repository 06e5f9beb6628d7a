/* Calls that programs seldom make, and what they refuse, by their manual pages.
 *
 * prints: signals|timers|clocks|cancelling
 * schedules: 0
 * natively: no
 */
#include <errno.h>
#include <pthread.h>
#include <signal.h>
#include <stdio.h>
#include <stdlib.h>
#include <string.h>
#include <sys/time.h>
#include <time.h>
#include <unistd.h>

#define CHECK(holds) ((holds) ? (void)0 : (printf("line %d: %s, errno %d\n", __LINE__, #holds, errno), exit(1)))
#define FAILS(call, number) CHECK((errno = 0, (call) == -1 && errno == (number)))

static volatile int caught;
static void note(int number) { caught = number; }

static void signals(void)
{
	struct sigaction action = {.sa_handler = note}, old;
	struct timespec soon = {0, 1000000};
	siginfo_t info;
	sigset_t set;
	sigemptyset(&set);
	FAILS(sigaction(0, &action, NULL), EINVAL);
	FAILS(sigaction(99, &action, NULL), EINVAL);
	FAILS(sigaction(SIGKILL, &action, NULL), EINVAL);
	FAILS(sigprocmask(77, &set, NULL), EINVAL);
	CHECK(pthread_sigmask(77, &set, NULL) == EINVAL);
	FAILS(sighold(99), EINVAL);
	CHECK(signal(SIGUSR1, note) == SIG_DFL && siginterrupt(SIGUSR1, 1) == 0);
	CHECK(sigaction(SIGUSR1, NULL, &old) == 0 && !(old.sa_flags & SA_RESTART));
	CHECK(siginterrupt(SIGUSR1, 0) == 0 && sigaction(SIGUSR1, NULL, &old) == 0 && (old.sa_flags & SA_RESTART));
	FAILS(siginterrupt(99, 0), EINVAL);
	CHECK(sigset(SIGUSR2, SIG_HOLD) == SIG_DFL && sigset(SIGUSR2, note) == SIG_HOLD);
	CHECK(sigset(99, note) == SIG_ERR);
	sigaddset(&set, SIGUSR1);
	CHECK(sigprocmask(SIG_BLOCK, &set, NULL) == 0 && raise(SIGUSR1) == 0 && caught == 0);
	CHECK(sigpending(&set) == 0 && sigismember(&set, SIGUSR1) == 1);
	CHECK(sigtimedwait(&set, &info, &soon) == SIGUSR1 && info.si_signo == SIGUSR1);
	FAILS(sigtimedwait(&set, NULL, &soon), EAGAIN);
	CHECK(raise(SIGUSR1) == 0 && sigwaitinfo(&set, NULL) == SIGUSR1);
	CHECK(sigprocmask(SIG_UNBLOCK, &set, NULL) == 0 && kill(getpid(), SIGUSR1) == 0 && caught == SIGUSR1);
	CHECK(strcmp(strsignal(SIGUSR1), "User defined signal 1") == 0 && strcmp(strsignal(99), "Unknown signal") == 0);
	puts("signals");
}

static void timers(void)
{
	struct itimerval value = {{0, 0}, {100000, 0}}, before;
	struct itimerspec first = {{0, 0}, {0, 2000000}}, left;
	struct sigevent event = {.sigev_notify = SIGEV_SIGNAL, .sigev_signo = SIGUSR2};
	timer_t timer, none = (timer_t)(long)31;
	CHECK(signal(SIGALRM, note) == SIG_DFL && alarm(7) == 0 && alarm(0) == 7);
	FAILS(setitimer(ITIMER_VIRTUAL, &value, NULL), EINVAL);
	CHECK(setitimer(ITIMER_REAL, &value, NULL) == 0 && getitimer(ITIMER_REAL, &before) == 0 && before.it_value.tv_sec > 0);
	CHECK(ualarm(1000, 0) > 0);
	while (caught != SIGALRM)
		usleep(500);
	FAILS(timer_create(CLOCK_PROCESS_CPUTIME_ID, &event, &timer), EINVAL);
	event.sigev_signo = 99;
	FAILS(timer_create(CLOCK_REALTIME, &event, &timer), EINVAL);
	event.sigev_signo = SIGUSR2;
	CHECK(timer_create(CLOCK_MONOTONIC, &event, &timer) == 0);
	FAILS(timer_settime(none, 0, &first, NULL), EINVAL);
	FAILS(timer_gettime(none, &left), EINVAL);
	FAILS(timer_delete(none), EINVAL);
	first.it_value.tv_nsec = -1;
	FAILS(timer_settime(timer, 0, &first, NULL), EINVAL);
	first.it_value.tv_sec = 100000, first.it_value.tv_nsec = 0;
	CHECK(timer_settime(timer, 0, &first, NULL) == 0 && timer_gettime(timer, &left) == 0 && left.it_value.tv_sec > 0);
	first.it_value.tv_sec = 0, first.it_value.tv_nsec = 1; /* long past */
	CHECK(timer_settime(timer, TIMER_ABSTIME, &first, &left) == 0 && left.it_value.tv_sec > 0);
	while (caught != SIGUSR2)
		usleep(500);
	CHECK(timer_delete(timer) == 0);
	puts("timers");
}

static void clocks(void)
{
	struct timespec now, then = {-1, 0}, odd = {0, 1000000000};
	struct timeval day;
	time_t seconds, same;
	FAILS(nanosleep(&then, NULL), EINVAL);
	FAILS(nanosleep(&odd, NULL), EINVAL);
	CHECK(clock_nanosleep(CLOCK_MONOTONIC, 0, &odd, NULL) == EINVAL);
	CHECK(clock_gettime(CLOCK_MONOTONIC, &now) == 0);
	then = now, then.tv_sec += 3;
	CHECK(clock_nanosleep(CLOCK_MONOTONIC, TIMER_ABSTIME, &then, NULL) == 0);
	CHECK(clock_gettime(CLOCK_MONOTONIC, &now) == 0 && now.tv_sec >= then.tv_sec);
	CHECK(clock_nanosleep(CLOCK_MONOTONIC, TIMER_ABSTIME, &then, NULL) == 0); /* it is past */
	CHECK(usleep(10) == 0 && clock_gettime(CLOCK_THREAD_CPUTIME_ID, &now) == 0);
	CHECK(gettimeofday(&day, NULL) == 0 && (same = time(&seconds)) == seconds && seconds - day.tv_sec < 5);
	puts("clocks");
}

static void *until_cancelled(void *asynchronous)
{
	int old;
	CHECK(pthread_setcancelstate(77, NULL) == EINVAL && pthread_setcanceltype(77, NULL) == EINVAL);
	CHECK(pthread_setcancelstate(PTHREAD_CANCEL_DISABLE, &old) == 0 && old == PTHREAD_CANCEL_ENABLE);
	CHECK(pthread_cancel(pthread_self()) == 0);
	pthread_testcancel(); /* nothing happens */
	CHECK(pthread_setcanceltype(PTHREAD_CANCEL_ASYNCHRONOUS, &old) == 0 && old == PTHREAD_CANCEL_DEFERRED);
	if (asynchronous == NULL)
		CHECK(pthread_setcanceltype(PTHREAD_CANCEL_DEFERRED, &old) == 0 && old == PTHREAD_CANCEL_ASYNCHRONOUS);
	CHECK(pthread_setcancelstate(PTHREAD_CANCEL_ENABLE, &old) == 0 && old == PTHREAD_CANCEL_DISABLE);
	pthread_testcancel();
	return NULL;
}

static void *wait_for_ever(void *unused)
{
	for (;;)
		pause();
	return unused;
}

static void cancelling(void)
{
	static int mark;
	pthread_t thread;
	void *value;
	for (int i = 0; i < 2; i++) {
		CHECK(pthread_create(&thread, NULL, until_cancelled, i ? &mark : NULL) == 0);
		CHECK(pthread_join(thread, &value) == 0 && value == PTHREAD_CANCELED);
	}
	CHECK(pthread_create(&thread, NULL, wait_for_ever, NULL) == 0 && usleep(10) == 0);
	CHECK(pthread_kill(thread, 0) == 0 && pthread_cancel(thread) == 0);
	CHECK(pthread_join(thread, &value) == 0 && value == PTHREAD_CANCELED);
	puts("cancelling");
}

int main(void)
{
	signals();
	timers();
	clocks();
	cancelling();
	return 0;
}
