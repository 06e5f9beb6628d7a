/* Memory, steps, breakpoints and registers of traced processes. */
#include "debugger.h"
#include <machine/reg.h>
#include <pthread.h>
#include <stdint.h>

static volatile int word = 7;
static char text[16] = "as it was";

static void
change_and_stop(void)
{
	word = 8;
	CHILD_REQUIRE(raise(SIGUSR1) == 0);
	_exit(word);
}

static pid_t
start_changed(void)
{
	pid_t pid = start_traced(change_and_stop);

	ATF_REQUIRE(go_on(pid));
	ATF_REQUIRE(wait_stop(pid, SIGUSR1));
	return (pid);
}

/* The memory is the process's own. */
ATF_TC_WITHOUT_HEAD(read_and_write);
ATF_TC_BODY(read_and_write, tc)
{
	pid_t pid = start_changed();
	caddr_t there = (caddr_t)(uintptr_t)&word;

	ATF_REQUIRE(ptrace(PT_READ_D, pid, there, 0) == 8);
	ATF_REQUIRE(ptrace(PT_READ_I, pid, there, 0) == 8);
	ATF_REQUIRE(ptrace(PT_WRITE_D, pid, there, 9) == 0);
	ATF_REQUIRE(ptrace(PT_READ_D, pid, there, 0) == 9);
	ATF_REQUIRE(word == 7);
	ATF_REQUIRE(go_on(pid));
	ATF_REQUIRE(wait_exit(pid, 9));
}

/* -1 can be what was read: errno is 0 then. */
ATF_TC_WITHOUT_HEAD(read_minus_one);
ATF_TC_BODY(read_minus_one, tc)
{
	pid_t pid = start_changed();
	caddr_t there = (caddr_t)(uintptr_t)&word;

	ATF_REQUIRE(ptrace(PT_WRITE_D, pid, there, -1) == 0);
	errno = 0;
	ATF_REQUIRE(ptrace(PT_READ_D, pid, there, 0) == -1 && errno == 0);
	errno = 0;
	ATF_REQUIRE(ptrace(PT_READ_D, pid, NULL, 0) == -1 && errno != 0);
	ATF_REQUIRE(request(PT_KILL, pid, 0));
	ATF_REQUIRE(wait_signaled(pid, SIGKILL));
}

/* PT_IO counts the bytes. */
ATF_TC_WITHOUT_HEAD(io);
ATF_TC_BODY(io, tc)
{
	char here[16] = "";
	struct ptrace_io_desc desc = { .piod_op = PIOD_READ_D, .piod_offs = text, .piod_addr = here, .piod_len = 10 };
	pid_t pid = start_changed();

	ATF_REQUIRE(ptrace(PT_IO, pid, (caddr_t)&desc, 0) == 0);
	ATF_REQUIRE(desc.piod_len == 10);
	ATF_REQUIRE(strcmp(here, "as it was") == 0);
	memcpy(here, "as it is!", 10);
	desc.piod_op = PIOD_WRITE_D;
	ATF_REQUIRE(ptrace(PT_IO, pid, (caddr_t)&desc, 0) == 0);
	memset(here, 0, sizeof(here));
	desc.piod_op = PIOD_READ_I;
	ATF_REQUIRE(ptrace(PT_IO, pid, (caddr_t)&desc, 0) == 0);
	ATF_REQUIRE(strcmp(here, "as it is!") == 0 && strcmp(text, "as it was") == 0);
	ATF_REQUIRE(go_on(pid));
	ATF_REQUIRE(wait_exit(pid, 8));
}

/* Only the debugger reads and writes memory, and only of a stopped process. */
ATF_TC_WITHOUT_HEAD(memory_refused);
ATF_TC_BODY(memory_refused, tc)
{
	caddr_t there = (caddr_t)(uintptr_t)&word;
	pid_t pid = start(sleep_for_ever);

	ATF_REQUIRE_ERRNO(EPERM, ptrace(PT_READ_D, pid, there, 0) == -1);
	ATF_REQUIRE_ERRNO(EPERM, ptrace(PT_WRITE_D, pid, there, 1) == -1);
	ATF_REQUIRE(attach(pid));
	ATF_REQUIRE(go_on(pid));
	ATF_REQUIRE_ERRNO(EBUSY, ptrace(PT_READ_D, pid, there, 0) == -1);
	ATF_REQUIRE(kill(pid, SIGKILL) == 0);
	ATF_REQUIRE(wait_signaled(pid, SIGKILL));
	ATF_REQUIRE_ERRNO(ESRCH, ptrace(PT_READ_D, pid, there, 0) == -1);
}

static void
call_and_exit(void)
{
	getpid();
	getppid();
	getpid();
	_exit(1);
}

/* A step stops with SIGTRAP, and the next one too. */
ATF_TC_WITHOUT_HEAD(PT_STEP_stops);
ATF_TC_BODY(PT_STEP_stops, tc)
{
	pid_t pid = start_traced(call_and_exit);

	for (int i = 0; i < 2; i++) {
		ATF_REQUIRE(request(PT_STEP, pid, 0));
		ATF_REQUIRE(wait_stop(pid, SIGTRAP));
		ATF_REQUIRE((flags(pid) & (PL_FLAG_SCE | PL_FLAG_EXEC | PL_FLAG_BORN)) == 0);
	}
	ATF_REQUIRE(go_on(pid));
	ATF_REQUIRE(wait_exit(pid, 1));
}

static volatile sig_atomic_t caught;
static void count(int sig) { caught += sig == SIGUSR1 ? 1 : 10; }

static void
abort_under_a_handler(void)
{
	CHILD_REQUIRE(signal(SIGUSR1, count) != SIG_ERR);
	CHILD_REQUIRE(raise(SIGABRT) == 0);
	_exit(caught);
}

/* A step can deliver a signal: the handler runs, and the step is still one. */
ATF_TC_WITHOUT_HEAD(PT_STEP_with_signal);
ATF_TC_BODY(PT_STEP_with_signal, tc)
{
	pid_t pid = start_traced(abort_under_a_handler);

	ATF_REQUIRE(go_on(pid));
	ATF_REQUIRE(wait_stop(pid, SIGABRT));
	ATF_REQUIRE(request(PT_STEP, pid, SIGUSR1));
	ATF_REQUIRE(wait_stop(pid, SIGTRAP));
	ATF_REQUIRE(go_on(pid));
	ATF_REQUIRE(wait_exit(pid, 1));
}

/* PT_SETSTEP makes PT_CONTINUE a step, and PT_CLEARSTEP takes that back. */
ATF_TC_WITHOUT_HEAD(PT_SETSTEP_and_PT_CLEARSTEP);
ATF_TC_BODY(PT_SETSTEP_and_PT_CLEARSTEP, tc)
{
	pid_t pid = start_traced(call_and_exit);

	ATF_REQUIRE(ptrace(PT_SETSTEP, pid, NULL, 0) == 0);
	ATF_REQUIRE(go_on(pid));
	ATF_REQUIRE(wait_stop(pid, SIGTRAP));
	ATF_REQUIRE(ptrace(PT_SETSTEP, pid, NULL, 0) == 0);
	ATF_REQUIRE(ptrace(PT_CLEARSTEP, pid, NULL, 0) == 0);
	ATF_REQUIRE(go_on(pid));
	ATF_REQUIRE(wait_exit(pid, 1));
}

/* Registers are read, and can be written back. */
ATF_TC_WITHOUT_HEAD(registers);
ATF_TC_BODY(registers, tc)
{
	struct reg reg;
	pid_t pid = start_traced(call_and_exit);

	ATF_REQUIRE(ptrace(PT_GETREGS, pid, (caddr_t)&reg, 0) == 0);
	ATF_REQUIRE(ptrace(PT_SETREGS, pid, (caddr_t)&reg, 0) == 0);
	ATF_REQUIRE(go_on(pid));
	ATF_REQUIRE(wait_exit(pid, 1));
}

#if defined(__amd64__) || defined(__i386__)
#define BREAKPOINT 0xcc
#define NO_OPERATION 0x90

/* An instruction without effect: the program counter needs no setting back. */
void place(void);
__asm__(".text\n.globl place\nplace:\n\tnop\n\tret\n");

static int
set_byte(pid_t pid, int byte)
{
	caddr_t there = (caddr_t)(uintptr_t)place;
	int old = ptrace(PT_READ_I, pid, there, 0);

	ATF_REQUIRE(ptrace(PT_WRITE_I, pid, there, (old & ~0xff) | byte) == 0);
	return (old & 0xff);
}

static void
come_by_three_times(void)
{
	for (int i = 0; i < 3; i++)
		place();
	_exit(1);
}

/* A breakpoint stops as often as the process comes by, until it is taken out. */
ATF_TC_WITHOUT_HEAD(breakpoint);
ATF_TC_BODY(breakpoint, tc)
{
	pid_t pid = start_traced(come_by_three_times);

	ATF_REQUIRE(set_byte(pid, BREAKPOINT) == NO_OPERATION);
	for (int i = 0; i < 2; i++) {
		ATF_REQUIRE(go_on(pid));
		ATF_REQUIRE(wait_stop(pid, SIGTRAP));
	}
	ATF_REQUIRE(set_byte(pid, NO_OPERATION) == BREAKPOINT);
	ATF_REQUIRE(go_on(pid));
	ATF_REQUIRE(wait_exit(pid, 1));
}

static void
trap_and_exit(void)
{
	__asm__ volatile("int3");
	_exit(1);
}

ATF_TC_WITHOUT_HEAD(PT_KILL_breakpoint);
ATF_TC_BODY(PT_KILL_breakpoint, tc)
{
	pid_t pid = start_traced(trap_and_exit);

	ATF_REQUIRE(go_on(pid));
	ATF_REQUIRE(wait_stop(pid, SIGTRAP));
	ATF_REQUIRE(request(PT_KILL, pid, 0));
	ATF_REQUIRE(wait_signaled(pid, SIGKILL));
	ATF_REQUIRE(no_child_left());
}

/* A breakpoint ends a process without a debugger. */
ATF_TC_WITHOUT_HEAD(breakpoint_without_debugger);
ATF_TC_BODY(breakpoint_without_debugger, tc)
{
	ATF_REQUIRE(wait_signaled(start(trap_and_exit), SIGTRAP));
}

static pthread_barrier_t together;

static void *
trap_in_a_thread(void *argument)
{
	pthread_barrier_wait(&together);
	__asm__ volatile("int3");
	return (argument);
}

static void
trap_in_two_threads(void)
{
	pthread_t thread;

	CHILD_REQUIRE(pthread_barrier_init(&together, NULL, 2) == 0);
	CHILD_REQUIRE(pthread_create(&thread, NULL, trap_in_a_thread, NULL) == 0);
	trap_in_a_thread(NULL);
	CHILD_REQUIRE(pthread_join(thread, NULL) == 0);
	_exit(1);
}

/* Each thread's trap is a stop of its own. */
ATF_TC_WITHOUT_HEAD(breakpoints_of_two_threads);
ATF_TC_BODY(breakpoints_of_two_threads, tc)
{
	pid_t pid = start_traced(trap_in_two_threads);
	lwpid_t first, second;

	ATF_REQUIRE(go_on(pid));
	ATF_REQUIRE(wait_stop(pid, SIGTRAP));
	first = info(pid).pl_lwpid;
	ATF_REQUIRE(go_on(pid));
	ATF_REQUIRE(wait_stop(pid, SIGTRAP));
	second = info(pid).pl_lwpid;
	ATF_REQUIRE(first != second);
	ATF_REQUIRE(go_on(pid));
	ATF_REQUIRE(wait_exit(pid, 1));
}
#endif

ATF_TP_ADD_TCS(tp)
{
	ATF_TP_ADD_TC(tp, read_and_write);
	ATF_TP_ADD_TC(tp, read_minus_one);
	ATF_TP_ADD_TC(tp, io);
	ATF_TP_ADD_TC(tp, memory_refused);
	ATF_TP_ADD_TC(tp, PT_STEP_stops);
	ATF_TP_ADD_TC(tp, PT_STEP_with_signal);
	ATF_TP_ADD_TC(tp, PT_SETSTEP_and_PT_CLEARSTEP);
	ATF_TP_ADD_TC(tp, registers);
#if defined(__amd64__) || defined(__i386__)
	ATF_TP_ADD_TC(tp, breakpoint);
	ATF_TP_ADD_TC(tp, PT_KILL_breakpoint);
	ATF_TP_ADD_TC(tp, breakpoint_without_debugger);
	ATF_TP_ADD_TC(tp, breakpoints_of_two_threads);
#endif
	return (atf_no_error());
}
