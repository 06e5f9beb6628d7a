/* Threads: of traced processes, and of pthread(3) on their own. */
#include "debugger.h"
#include <pthread.h>
#include <pthread_np.h>
#include <sched.h>

static pthread_barrier_t together;

static void *
raise_usr1(void *argument)
{
	CHILD_REQUIRE(raise(SIGUSR1) == 0);
	return (argument);
}

static void
raise_in_a_thread(void)
{
	pthread_t thread;

	CHILD_REQUIRE(pthread_create(&thread, NULL, raise_usr1, NULL) == 0);
	CHILD_REQUIRE(raise(SIGUSR2) == 0);
	CHILD_REQUIRE(pthread_join(thread, NULL) == 0);
	_exit(1);
}

/* The signals of two threads are two stops, each of its own LWP. */
ATF_TC_WITHOUT_HEAD(signals_of_two_threads);
ATF_TC_BODY(signals_of_two_threads, tc)
{
	pid_t pid = start_traced(raise_in_a_thread);
	lwpid_t first = info(pid).pl_lwpid;
	int seen = 0, status;

	for (int i = 0; i < 2; i++) {
		ATF_REQUIRE(go_on(pid));
		ATF_REQUIRE(waitpid(pid, &status, 0) == pid);
		ATF_REQUIRE(status == STOPPED_BY(SIGUSR1) || status == STOPPED_BY(SIGUSR2));
		ATF_REQUIRE((info(pid).pl_lwpid == first) == (status == STOPPED_BY(SIGUSR2)));
		seen += WSTOPSIG(status);
	}
	ATF_REQUIRE(seen == SIGUSR1 + SIGUSR2);
	ATF_REQUIRE(go_on(pid));
	ATF_REQUIRE(wait_exit(pid, 1));
}

static int gate[2];

static void *
await_gate(void *argument)
{
	CHILD_REQUIRE(await_release(gate[0]));
	return (argument);
}

static void
raise_when_released(void)
{
	pthread_t thread;

	CHILD_REQUIRE(pthread_create(&thread, NULL, raise_usr1, NULL) == 0);
	await_gate(NULL);
	CHILD_REQUIRE(raise(SIGUSR2) == 0);
	CHILD_REQUIRE(pthread_join(thread, NULL) == 0);
	_exit(1);
}

/* A suspended LWP doesn't run until PT_RESUME: its signal comes last. */
ATF_TC_WITHOUT_HEAD(suspend_and_resume);
ATF_TC_BODY(suspend_and_resume, tc)
{
	pid_t pid;
	lwpid_t second;

	ATF_REQUIRE(pipe(gate) == 0);
	pid = start_traced(raise_when_released);
	set_events(pid, PTRACE_LWP);
	ATF_REQUIRE(go_on(pid));
	ATF_REQUIRE(wait_stop(pid, SIGTRAP));
	ATF_REQUIRE(flags(pid) & PL_FLAG_BORN);
	second = info(pid).pl_lwpid;
	ATF_REQUIRE(ptrace(PT_SUSPEND, second, NULL, 0) == 0);
	release(gate[1]);
	ATF_REQUIRE(go_on(pid));
	ATF_REQUIRE(wait_stop(pid, SIGUSR2));
	ATF_REQUIRE(info(pid).pl_lwpid != second);
	ATF_REQUIRE(ptrace(PT_RESUME, second, NULL, 0) == 0);
	ATF_REQUIRE(go_on(pid));
	ATF_REQUIRE(wait_stop(pid, SIGUSR1));
	ATF_REQUIRE(info(pid).pl_lwpid == second);
	set_events(pid, 0);
	ATF_REQUIRE(go_on(pid));
	ATF_REQUIRE(wait_exit(pid, 1));
}

static void *
wait_and_pause(void *argument)
{
	pthread_barrier_wait(argument);
	sleep_for_ever();
	return (NULL);
}

static void
stop_with_two_threads(void)
{
	pthread_t thread;

	CHILD_REQUIRE(pthread_barrier_init(&together, NULL, 2) == 0);
	CHILD_REQUIRE(pthread_create(&thread, NULL, wait_and_pause, &together) == 0);
	pthread_barrier_wait(&together);
	CHILD_REQUIRE(raise(SIGUSR1) == 0);
	_exit(1);
}

/* PT_KILL ends all threads. */
ATF_TC_WITHOUT_HEAD(PT_KILL_threads);
ATF_TC_BODY(PT_KILL_threads, tc)
{
	pid_t pid = start_traced(stop_with_two_threads);

	ATF_REQUIRE(go_on(pid));
	ATF_REQUIRE(wait_stop(pid, SIGUSR1));
	ATF_REQUIRE(ptrace(PT_GETNUMLWPS, pid, NULL, 0) == 2);
	ATF_REQUIRE(request(PT_KILL, pid, 0));
	ATF_REQUIRE(wait_signaled(pid, SIGKILL));
	ATF_REQUIRE(no_child_left());
}

static void
await_gate_in_two_threads(void)
{
	pthread_t thread;

	CHILD_REQUIRE(pthread_create(&thread, NULL, await_gate, NULL) == 0);
	await_gate(NULL);
	CHILD_REQUIRE(pthread_join(thread, NULL) == 0);
	_exit(1);
}

/* PT_ATTACH stops all threads, and PT_DETACH lets all go on. */
ATF_TC_WITHOUT_HEAD(attach_to_threads);
ATF_TC_BODY(attach_to_threads, tc)
{
	pid_t pid;

	ATF_REQUIRE(pipe(gate) == 0);
	pid = start(await_gate_in_two_threads);
	ATF_REQUIRE(attach(pid));
	ATF_REQUIRE(request(PT_DETACH, pid, 0));
	release(gate[1]);
	release(gate[1]);
	ATF_REQUIRE(wait_exit(pid, 1));
}

/* A step of one LWP is its own stop. */
ATF_TC_WITHOUT_HEAD(step_one_lwp);
ATF_TC_BODY(step_one_lwp, tc)
{
	pid_t pid = start_traced(stop_with_two_threads);
	lwpid_t first = info(pid).pl_lwpid;

	ATF_REQUIRE(go_on(pid));
	ATF_REQUIRE(wait_stop(pid, SIGUSR1));
	ATF_REQUIRE(info(pid).pl_lwpid == first);
	ATF_REQUIRE(request(PT_STEP, first, 0));
	ATF_REQUIRE(wait_stop(pid, SIGTRAP));
	ATF_REQUIRE(info(pid).pl_lwpid == first);
	ATF_REQUIRE(go_on(pid));
	ATF_REQUIRE(wait_exit(pid, 1));
}

/* ---- without a debugger */

static void *
add_one(void *argument)
{
	return ((char *)argument + 1);
}

ATF_TC_WITHOUT_HEAD(join_gives_the_value);
ATF_TC_BODY(join_gives_the_value, tc)
{
	pthread_t thread;
	char place[2];
	void *value = NULL;

	ATF_REQUIRE(pthread_create(&thread, NULL, add_one, place) == 0);
	ATF_REQUIRE(pthread_join(thread, &value) == 0);
	ATF_REQUIRE(value == place + 1);
}

static pthread_mutex_t mutex = PTHREAD_MUTEX_INITIALIZER;
static pthread_cond_t filled = PTHREAD_COND_INITIALIZER;
static int items, taken, inside;

static void *
take_three(void *argument)
{
	for (int i = 0; i < 3; i++) {
		pthread_mutex_lock(&mutex);
		while (items == 0)
			pthread_cond_wait(&filled, &mutex);
		items--;
		taken++;
		pthread_mutex_unlock(&mutex);
	}
	return (argument);
}

ATF_TC_WITHOUT_HEAD(condition_signal);
ATF_TC_BODY(condition_signal, tc)
{
	pthread_t threads[2];

	for (int i = 0; i < 2; i++)
		ATF_REQUIRE(pthread_create(&threads[i], NULL, take_three, NULL) == 0);
	for (int i = 0; i < 6; i++) {
		pthread_mutex_lock(&mutex);
		items++;
		pthread_cond_signal(&filled);
		pthread_mutex_unlock(&mutex);
	}
	for (int i = 0; i < 2; i++)
		ATF_REQUIRE(pthread_join(threads[i], NULL) == 0);
	ATF_REQUIRE(taken == 6 && items == 0);
}

ATF_TC_WITHOUT_HEAD(condition_broadcast);
ATF_TC_BODY(condition_broadcast, tc)
{
	pthread_t threads[3];

	for (int i = 0; i < 3; i++)
		ATF_REQUIRE(pthread_create(&threads[i], NULL, take_three, NULL) == 0);
	pthread_mutex_lock(&mutex);
	items = 9;
	pthread_cond_broadcast(&filled);
	pthread_mutex_unlock(&mutex);
	for (int i = 0; i < 3; i++)
		ATF_REQUIRE(pthread_join(threads[i], NULL) == 0);
	ATF_REQUIRE(taken == 9 && items == 0);
}

static void *
be_inside_alone(void *argument)
{
	for (int i = 0; i < 3; i++) {
		pthread_mutex_lock(&mutex);
		ATF_REQUIRE(inside++ == 0);
		sched_yield();
		ATF_REQUIRE(inside-- == 1);
		pthread_mutex_unlock(&mutex);
	}
	return (argument);
}

ATF_TC_WITHOUT_HEAD(mutex_excludes);
ATF_TC_BODY(mutex_excludes, tc)
{
	pthread_t threads[3];

	for (int i = 0; i < 3; i++)
		ATF_REQUIRE(pthread_create(&threads[i], NULL, be_inside_alone, NULL) == 0);
	for (int i = 0; i < 3; i++)
		ATF_REQUIRE(pthread_join(threads[i], NULL) == 0);
	ATF_REQUIRE(inside == 0);
}

static int arrived;

static void *
arrive(void *argument)
{
	int serial;

	pthread_mutex_lock(&mutex);
	arrived++;
	pthread_mutex_unlock(&mutex);
	serial = pthread_barrier_wait(&together);
	ATF_REQUIRE(arrived == 3);
	return (serial == PTHREAD_BARRIER_SERIAL_THREAD ? argument : NULL);
}

/* A barrier lets all go on together, and names one of them. */
ATF_TC_WITHOUT_HEAD(barrier);
ATF_TC_BODY(barrier, tc)
{
	pthread_t threads[3];
	int serials = 0;
	void *value;

	ATF_REQUIRE(pthread_barrier_init(&together, NULL, 3) == 0);
	for (int i = 0; i < 3; i++)
		ATF_REQUIRE(pthread_create(&threads[i], NULL, arrive, &together) == 0);
	for (int i = 0; i < 3; i++) {
		ATF_REQUIRE(pthread_join(threads[i], &value) == 0);
		serials += value != NULL;
	}
	ATF_REQUIRE(serials == 1);
}

static pthread_t catcher;
static volatile sig_atomic_t caught;
static void note_thread(int sig) { catcher = pthread_self(); caught = sig; }

static void *
await_caught(void *argument)
{
	while (!caught)
		sched_yield();
	return (argument);
}

/* pthread_kill(3) is for one thread; a signal of the process goes to one that doesn't block it. */
ATF_TC_WITHOUT_HEAD(pthread_kill_is_directed);
ATF_TC_BODY(pthread_kill_is_directed, tc)
{
	pthread_t thread;

	ATF_REQUIRE(signal(SIGUSR1, note_thread) != SIG_ERR);
	ATF_REQUIRE(pthread_create(&thread, NULL, await_caught, NULL) == 0);
	ATF_REQUIRE(pthread_kill(thread, SIGUSR1) == 0);
	ATF_REQUIRE(pthread_join(thread, NULL) == 0);
	ATF_REQUIRE(caught == SIGUSR1 && pthread_equal(catcher, thread));
}

ATF_TC_WITHOUT_HEAD(signal_goes_where_it_is_not_blocked);
ATF_TC_BODY(signal_goes_where_it_is_not_blocked, tc)
{
	pthread_t thread;
	sigset_t set;

	ATF_REQUIRE(signal(SIGUSR1, note_thread) != SIG_ERR);
	ATF_REQUIRE(pthread_create(&thread, NULL, await_caught, NULL) == 0);
	sigemptyset(&set);
	sigaddset(&set, SIGUSR1);
	ATF_REQUIRE(pthread_sigmask(SIG_BLOCK, &set, NULL) == 0);
	ATF_REQUIRE(kill(getpid(), SIGUSR1) == 0);
	ATF_REQUIRE(pthread_join(thread, NULL) == 0);
	ATF_REQUIRE(caught == SIGUSR1 && pthread_equal(catcher, thread));
}

static void *
look_at_mask(void *argument)
{
	sigset_t set, pending;

	ATF_REQUIRE(pthread_sigmask(SIG_BLOCK, NULL, &set) == 0);
	ATF_REQUIRE(sigismember(&set, SIGUSR1) == 1 && sigismember(&set, SIGUSR2) == 0);
	ATF_REQUIRE(sigpending(&pending) == 0);
	ATF_REQUIRE(sigismember(&pending, SIGUSR1) == 0);
	return (argument);
}

/* A new thread has its maker's mask, and none of its pending signals. */
ATF_TC_WITHOUT_HEAD(mask_is_inherited);
ATF_TC_BODY(mask_is_inherited, tc)
{
	pthread_t thread;
	sigset_t set;

	sigemptyset(&set);
	sigaddset(&set, SIGUSR1);
	ATF_REQUIRE(pthread_sigmask(SIG_BLOCK, &set, NULL) == 0);
	ATF_REQUIRE(raise(SIGUSR1) == 0);
	ATF_REQUIRE(pthread_create(&thread, NULL, look_at_mask, NULL) == 0);
	ATF_REQUIRE(pthread_join(thread, NULL) == 0);
}

static void *
fork_and_wait(void *argument)
{
	pid_t pid = fork();

	ATF_REQUIRE(pid != -1);
	if (pid == 0)
		_exit(3);
	ATF_REQUIRE(wait_exit(pid, 3));
	return (argument);
}

ATF_TC_WITHOUT_HEAD(fork_in_a_thread);
ATF_TC_BODY(fork_in_a_thread, tc)
{
	pthread_t thread;

	ATF_REQUIRE(pthread_create(&thread, NULL, fork_and_wait, NULL) == 0);
	ATF_REQUIRE(pthread_join(thread, NULL) == 0);
	ATF_REQUIRE(no_child_left());
}

static void *
exit_process(void *argument)
{
	_exit(argument == NULL ? 4 : 5);
}

static void
leave_main_thread(void)
{
	pthread_t thread;

	CHILD_REQUIRE(pthread_create(&thread, NULL, exit_process, NULL) == 0);
	pthread_exit(NULL);
}

/* pthread_exit(3) of the first thread leaves the others running. */
ATF_TC_WITHOUT_HEAD(main_thread_leaves);
ATF_TC_BODY(main_thread_leaves, tc)
{
	ATF_REQUIRE(wait_exit(start(leave_main_thread), 4));
}

static int ids[2];

static void *
note_id(void *argument)
{
	*(int *)argument = pthread_getthreadid_np();
	return (NULL);
}

/* The threads' numbers differ, and the debugger's LWP is that of the thread. */
static void
report_id(void)
{
	_exit(pthread_getthreadid_np() & 0x7f);
}

ATF_TC_WITHOUT_HEAD(thread_numbers);
ATF_TC_BODY(thread_numbers, tc)
{
	pthread_t thread;
	pid_t pid;
	lwpid_t lwp;

	note_id(&ids[0]);
	ATF_REQUIRE(pthread_create(&thread, NULL, note_id, &ids[1]) == 0);
	ATF_REQUIRE(pthread_join(thread, NULL) == 0);
	ATF_REQUIRE(ids[0] != ids[1]);
	pid = start_traced(report_id);
	lwp = info(pid).pl_lwpid;
	ATF_REQUIRE(go_on(pid));
	ATF_REQUIRE(wait_exit(pid, lwp & 0x7f));
}

ATF_TP_ADD_TCS(tp)
{
	ATF_TP_ADD_TC(tp, signals_of_two_threads);
	ATF_TP_ADD_TC(tp, suspend_and_resume);
	ATF_TP_ADD_TC(tp, PT_KILL_threads);
	ATF_TP_ADD_TC(tp, attach_to_threads);
	ATF_TP_ADD_TC(tp, step_one_lwp);
	ATF_TP_ADD_TC(tp, join_gives_the_value);
	ATF_TP_ADD_TC(tp, condition_signal);
	ATF_TP_ADD_TC(tp, condition_broadcast);
	ATF_TP_ADD_TC(tp, mutex_excludes);
	ATF_TP_ADD_TC(tp, barrier);
	ATF_TP_ADD_TC(tp, pthread_kill_is_directed);
	ATF_TP_ADD_TC(tp, signal_goes_where_it_is_not_blocked);
	ATF_TP_ADD_TC(tp, mask_is_inherited);
	ATF_TP_ADD_TC(tp, fork_in_a_thread);
	ATF_TP_ADD_TC(tp, main_thread_leaves);
	ATF_TP_ADD_TC(tp, thread_numbers);
	return (atf_no_error());
}
