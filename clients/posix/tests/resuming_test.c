/*
 * How threads go on: a step belongs to one thread, and stays with it until it has made an instruction (amd64: its trap
 * flag, TDB_STEP of sys/amd64/amd64/trap.c). A process that is given an address goes on there, also at 0.
 */
#include "debugger.h"
#include "registers.h"
#include <pthread.h>

#define THREADS 3

static pthread_barrier_t together;

static void *
calls(void *unused)
{
	pthread_barrier_wait(&together);
	for (int i = 0; i < 5; i++)
		getpid();
	pthread_barrier_wait(&together);
	return (unused);
}

/* The first thread sends three signals while the others call; all of them are there until the end. */
static void
runs_threads(void)
{
	pthread_t threads[THREADS - 1];

	CHILD_REQUIRE(pthread_barrier_init(&together, NULL, THREADS) == 0);
	for (int i = 0; i < THREADS - 1; i++)
		CHILD_REQUIRE(pthread_create(&threads[i], NULL, calls, NULL) == 0);
	CHILD_REQUIRE(raise(SIGUSR1) == 0);
	pthread_barrier_wait(&together);
	for (int i = 0; i < 3; i++)
		CHILD_REQUIRE(raise(SIGUSR2) == 0);
	pthread_barrier_wait(&together);
	for (int i = 0; i < THREADS - 1; i++)
		CHILD_REQUIRE(pthread_join(threads[i], NULL) == 0);
	_exit(5);
}

static lwpid_t lwps[THREADS]; /* the first one sends the signals */

/* Its threads are there. */
static pid_t
start_threads(void)
{
	pid_t pid = start_traced(runs_threads);
	lwpid_t listed[THREADS];
	int next = 1;

	ATF_REQUIRE(go_on(pid) && wait_stop(pid, SIGUSR1));
	ATF_REQUIRE(ptrace(PT_GETLWPLIST, pid, (caddr_t)listed, THREADS) == THREADS);
	lwps[0] = info(pid).pl_lwpid;
	for (int i = 0; i < THREADS; i++)
		if (listed[i] != lwps[0])
			lwps[next++] = listed[i];
	ATF_REQUIRE(next == THREADS);
	return (pid);
}

/* Until its end these are the stops for steps, of each thread; all others are for SIGUSR2. */
static void
makes_steps(pid_t pid, int first, int second, int third)
{
	int made[THREADS] = { 0, 0, 0 }, status;
	struct ptrace_lwpinfo pl;

	for (;;) {
		ATF_REQUIRE(waitpid(pid, &status, 0) == pid);
		if (!WIFSTOPPED(status))
			break;
		pl = info(pid);
		if (WSTOPSIG(status) == SIGTRAP) {
			ATF_REQUIRE(pl.pl_flags & PL_FLAG_SI && pl.pl_siginfo.si_code == TRAP_TRACE);
			for (int i = 0; i < THREADS; i++)
				made[i] += lwps[i] == pl.pl_lwpid;
		} else
			ATF_REQUIRE(WSTOPSIG(status) == SIGUSR2 && pl.pl_lwpid == lwps[0]);
		ATF_REQUIRE(go_on(pid));
	}
	ATF_REQUIRE(status == EXITED_WITH(5));
	ATF_REQUIRE_MSG(made[0] == first && made[1] == second && made[2] == third, "steps %d %d %d", made[0], made[1], made[2]);
}

static void
set_step(lwpid_t id)
{
	ATF_REQUIRE(ptrace(PT_SETSTEP, id, NULL, 0) == 0);
}

/* Whoever stops first, the step is made. */
ATF_TC_WITHOUT_HEAD(PT_SETSTEP_lasts);
ATF_TC_BODY(PT_SETSTEP_lasts, tc)
{
	pid_t pid = start_threads();

	set_step(lwps[2]);
	ATF_REQUIRE(go_on(pid));
	makes_steps(pid, 0, 0, 1);
}

ATF_TC_WITHOUT_HEAD(PT_STEP_lasts);
ATF_TC_BODY(PT_STEP_lasts, tc)
{
	pid_t pid = start_threads();

	(void)registers(pid);
	ATF_REQUIRE(request(PT_STEP, lwps[1], 0));
	makes_steps(pid, 0, 1, 0);
}

ATF_TC_WITHOUT_HEAD(several_steps);
ATF_TC_BODY(several_steps, tc)
{
	pid_t pid = start_threads();

	for (int i = 0; i < THREADS; i++)
		set_step(lwps[i]);
	ATF_REQUIRE(go_on(pid));
	makes_steps(pid, 1, 1, 1);
}

/* Of one by PT_STEP and another one by PT_SETSTEP, under a request that isn't PT_CONTINUE. */
ATF_TC_WITHOUT_HEAD(both_kinds_of_steps);
ATF_TC_BODY(both_kinds_of_steps, tc)
{
	pid_t pid = start_threads();

	set_step(lwps[1]);
	ATF_REQUIRE(request(PT_STEP, lwps[2], 0));
	makes_steps(pid, 0, 1, 1);
}

ATF_TC_WITHOUT_HEAD(PT_CLEARSTEP_of_one);
ATF_TC_BODY(PT_CLEARSTEP_of_one, tc)
{
	pid_t pid = start_threads();

	for (int i = 0; i < THREADS; i++)
		set_step(lwps[i]);
	ATF_REQUIRE(ptrace(PT_CLEARSTEP, lwps[1], NULL, 0) == 0);
	ATF_REQUIRE(go_on(pid));
	makes_steps(pid, 1, 0, 1);
}

/* A debugger that lets the process go steps nothing. */
ATF_TC_WITHOUT_HEAD(PT_DETACH_ends_steps);
ATF_TC_BODY(PT_DETACH_ends_steps, tc)
{
	pid_t pid = start_traced(sleep_for_ever);
	lwpid_t id = info(pid).pl_lwpid;

	set_step(id);
	ATF_REQUIRE(ptrace(PT_CLEARSTEP, id, NULL, 0) == 0);
	ATF_REQUIRE(request(PT_DETACH, pid, 0));
	ATF_REQUIRE(kill(pid, SIGKILL) == 0 && wait_signaled(pid, SIGKILL));
}

extern char breaks_at[];

static void *
breaks(void *unused)
{
	__asm__ volatile(".globl breaks_at\nbreaks_at: int3\n nop\n nop\n nop\n");
	return (unused);
}

static void
runs_breaking_threads(void)
{
	pthread_t threads[2];

	for (int i = 0; i < 2; i++)
		CHILD_REQUIRE(pthread_create(&threads[i], NULL, breaks, NULL) == 0);
	for (int i = 0; i < 2; i++)
		CHILD_REQUIRE(pthread_join(threads[i], NULL) == 0);
	_exit(6);
}

/* Two threads behind one breakpoint: each makes one instruction, and no more, before its stop. */
ATF_TC_WITHOUT_HEAD(each_step_is_an_instruction);
ATF_TC_BODY(each_step_is_an_instruction, tc)
{
	pid_t pid = start_traced(runs_breaking_threads);
	lwpid_t ids[2], id;

	for (int i = 0; i < 2; i++) {
		ATF_REQUIRE(go_on(pid) && wait_stop(pid, SIGTRAP));
		ids[i] = info(pid).pl_lwpid;
		ATF_REQUIRE(registers(ids[i]).r_rip == address(breaks_at) + 1);
		if (i == 0)
			ATF_REQUIRE(ptrace(PT_SUSPEND, ids[i], NULL, 0) == 0);
		set_step(ids[i]);
	}
	ATF_REQUIRE(ids[0] != ids[1] && ptrace(PT_RESUME, ids[0], NULL, 0) == 0);
	for (int i = 0; i < 2; i++) {
		ATF_REQUIRE(go_on(pid) && wait_stop(pid, SIGTRAP));
		id = info(pid).pl_lwpid;
		ATF_REQUIRE(id == ids[0] || id == ids[1]);
		ATF_REQUIRE_MSG(registers(id).r_rip == address(breaks_at) + 2, "%#lx", (long)registers(id).r_rip - address(breaks_at));
		ids[id == ids[1]] = 0;
	}
	ATF_REQUIRE(go_on(pid) && wait_exit(pid, 6));
}

static void leaves(void) { _exit(66); }

/* SIGSEGV at address 0, which the debugger mends. */
static void
faults_at_0(pid_t pid)
{
	struct ptrace_lwpinfo pl;
	struct reg r;

	ATF_REQUIRE(wait_stop(pid, SIGSEGV));
	pl = info(pid);
	r = registers(pid);
	ATF_REQUIRE(pl.pl_siginfo.si_code == SEGV_MAPERR && pl.pl_siginfo.si_addr == NULL && r.r_rip == 0);
	r.r_rsp = (r.r_rsp & ~15) - 8, r.r_rip = address((void *)(uintptr_t)leaves);
	set_registers(pid, &r);
	ATF_REQUIRE(go_on(pid) && wait_exit(pid, 66));
}

static void
raises(void)
{
	CHILD_REQUIRE(raise(SIGUSR1) == 0);
	getpid();
	_exit(1);
}

ATF_TC_WITHOUT_HEAD(address_0);
ATF_TC_BODY(address_0, tc)
{
	pid_t pid = start_traced(raises);

	ATF_REQUIRE(go_on(pid) && wait_stop(pid, SIGUSR1));
	ATF_REQUIRE(ptrace(PT_CONTINUE, pid, NULL, 0) == 0);
	faults_at_0(pid);
}

static volatile int goes;

static void
calls_twice(void)
{
	getpid();
	getpid();
	goes = 1;
	_exit(1);
}

/* Wherever PT_ATTACH has stopped it: it makes no further instruction of its own. */
ATF_TC_WITHOUT_HEAD(address_0_after_PT_ATTACH);
ATF_TC_BODY(address_0_after_PT_ATTACH, tc)
{
	pid_t pid = start(calls_twice);

	if (ptrace(PT_ATTACH, pid, NULL, 0) != 0) {
		ATF_REQUIRE(wait_exit(pid, 1));
		return;
	}
	ATF_REQUIRE(wait_stop(pid, SIGSTOP));
	if (ptrace(PT_READ_D, pid, (caddr_t)(uintptr_t)&goes, 0) == 0) {
		ATF_REQUIRE(ptrace(PT_CONTINUE, pid, NULL, 0) == 0);
		ATF_REQUIRE(wait_stop(pid, SIGSEGV));
	}
	ATF_REQUIRE(ptrace(PT_KILL, pid, NULL, 0) == 0 && wait_signaled(pid, SIGKILL));
}

/* A second stop, and other threads, don't make it forgotten. */
ATF_TC_WITHOUT_HEAD(address_0_with_threads);
ATF_TC_BODY(address_0_with_threads, tc)
{
	pid_t pid = start_threads();

	ATF_REQUIRE(ptrace(PT_CONTINUE, pid, NULL, 0) == 0);
	faults_at_0(pid);
}

/* Of the thread that is named, which isn't the one that has stopped. */
ATF_TC_WITHOUT_HEAD(address_0_of_another_thread);
ATF_TC_BODY(address_0_of_another_thread, tc)
{
	pid_t pid = start_threads();
	struct ptrace_lwpinfo pl;
	int status;

	ATF_REQUIRE(ptrace(PT_CONTINUE, lwps[1], NULL, 0) == 0);
	do {
		ATF_REQUIRE(waitpid(pid, &status, 0) == pid && WIFSTOPPED(status));
		pl = info(pid);
	} while (WSTOPSIG(status) == SIGUSR2 && go_on(pid));
	ATF_REQUIRE(WSTOPSIG(status) == SIGSEGV && pl.pl_lwpid == lwps[1]);
	ATF_REQUIRE(ptrace(PT_KILL, pid, NULL, 0) == 0 && wait_signaled(pid, SIGKILL));
}

ATF_TP_ADD_TCS(tp)
{
	ATF_TP_ADD_TC(tp, PT_SETSTEP_lasts);
	ATF_TP_ADD_TC(tp, PT_STEP_lasts);
	ATF_TP_ADD_TC(tp, several_steps);
	ATF_TP_ADD_TC(tp, both_kinds_of_steps);
	ATF_TP_ADD_TC(tp, PT_CLEARSTEP_of_one);
	ATF_TP_ADD_TC(tp, PT_DETACH_ends_steps);
	ATF_TP_ADD_TC(tp, each_step_is_an_instruction);
	ATF_TP_ADD_TC(tp, address_0);
	ATF_TP_ADD_TC(tp, address_0_after_PT_ATTACH);
	ATF_TP_ADD_TC(tp, address_0_with_threads);
	ATF_TP_ADD_TC(tp, address_0_of_another_thread);
	return (atf_no_error());
}
