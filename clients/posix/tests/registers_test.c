/* Registers of stopped processes, steps by an instruction, and what is known of a stop. FreeBSD on amd64. */
#include "debugger.h"
#include "registers.h"
#include <machine/psl.h>

static long kept[6];

static void
signals_itself(void)
{
	long result = call_with_marks((void *)(uintptr_t)kill, getpid(), SIGUSR1, kept);

	for (int i = 0; i < 6; i++)
		CHILD_REQUIRE(kept[i] == 0xb1 + i);
	_exit(result == 0 ? 7 : 8);
}

static pid_t
stopped_behind_call(void (*body)(void))
{
	pid_t pid = start_traced(body);

	ATF_REQUIRE(go_on(pid));
	ATF_REQUIRE(wait_stop(pid, SIGUSR1));
	return (pid);
}

/* A stop behind a call: the caller's registers, the call's result, and who has sent the signal. */
ATF_TC_WITHOUT_HEAD(stop_behind_a_call);
ATF_TC_BODY(stop_behind_a_call, tc)
{
	pid_t pid = stopped_behind_call(signals_itself);
	struct reg r = registers(pid);
	struct ptrace_lwpinfo pl = info(pid);

	ATF_REQUIRE(r.r_rip == address(behind_call) && r.r_rax == 0);
	ATF_REQUIRE(r.r_rbx == 0xb1 && r.r_rbp == 0xb2 && r.r_r12 == 0xb3 && r.r_r13 == 0xb4 && r.r_r14 == 0xb5 && r.r_r15 == 0xb6);
	ATF_REQUIRE(ptrace(PT_READ_D, pid, (caddr_t)(uintptr_t)r.r_rsp, 0) == (int)address(kept));
	ATF_REQUIRE(pl.pl_flags & PL_FLAG_SI);
	ATF_REQUIRE(pl.pl_siginfo.si_signo == SIGUSR1 && pl.pl_siginfo.si_code == SI_USER && pl.pl_siginfo.si_pid == pid);
	set_registers(pid, &r);
	ATF_REQUIRE(go_on(pid) && wait_exit(pid, 7));
}

static void
is_changed(void)
{
	long result = call_with_marks((void *)(uintptr_t)kill, getpid(), SIGUSR1, kept);

	CHILD_REQUIRE(kept[0] == 0xc1 && kept[1] == 0xb2 && kept[5] == 0xc6);
	_exit((int)result);
}

/* What a debugger sets is there when the process goes on. */
ATF_TC_WITHOUT_HEAD(registers_are_set);
ATF_TC_BODY(registers_are_set, tc)
{
	pid_t pid = stopped_behind_call(is_changed);
	struct reg r = registers(pid), again;

	r.r_rbx = 0xc1, r.r_r15 = 0xc6, r.r_rax = 44, r.r_r10 = -3;
	set_registers(pid, &r);
	again = registers(pid);
	ATF_REQUIRE(memcmp(&r, &again, sizeof(r)) == 0);
	ATF_REQUIRE(go_on(pid) && wait_exit(pid, 44));
}

static void leaves(void) { _exit(66); }

/* The counter is set with the registers, or by the request that goes on. */
ATF_TC_WITHOUT_HEAD(goes_on_elsewhere);
ATF_TC_BODY(goes_on_elsewhere, tc)
{
	pid_t pid = stopped_behind_call(signals_itself);
	struct reg r = registers(pid);

	r.r_rsp = (r.r_rsp & ~15) - 8, r.r_rip = address((void *)(uintptr_t)leaves);
	set_registers(pid, &r);
	ATF_REQUIRE(go_on(pid) && wait_exit(pid, 66));
	pid = stopped_behind_call(signals_itself);
	ATF_REQUIRE(ptrace(PT_CONTINUE, pid, (caddr_t)(uintptr_t)leaves, 0) == 0);
	ATF_REQUIRE(wait_exit(pid, 66));
}

/* Flags and a code segment that only a kernel may set aren't set. */
ATF_TC_WITHOUT_HEAD(insecure_registers);
ATF_TC_BODY(insecure_registers, tc)
{
	pid_t pid = stopped_behind_call(signals_itself);
	struct reg r = registers(pid), bad = r;

	bad.r_rflags ^= PSL_IOPL;
	ATF_REQUIRE_ERRNO(EINVAL, ptrace(PT_SETREGS, pid, (caddr_t)&bad, 0) == -1);
	bad = r;
	bad.r_cs &= ~3;
	ATF_REQUIRE_ERRNO(EINVAL, ptrace(PT_SETREGS, pid, (caddr_t)&bad, 0) == -1);
	ATF_REQUIRE(go_on(pid) && wait_exit(pid, 7));
}

/* A step from behind a call makes the next instruction. */
ATF_TC_WITHOUT_HEAD(step_is_an_instruction);
ATF_TC_BODY(step_is_an_instruction, tc)
{
	pid_t pid = stopped_behind_call(signals_itself);
	struct reg r = registers(pid);

	ATF_REQUIRE(steps(pid, pid));
	r = registers(pid);
	ATF_REQUIRE(r.r_rip == address(behind_call) + 1 && r.r_rcx == address(kept));
	ATF_REQUIRE(info(pid).pl_siginfo.si_code == TRAP_TRACE);
	ATF_REQUIRE(ptrace(PT_SETSTEP, pid, NULL, 0) == 0);
	ATF_REQUIRE(go_on(pid) && wait_stop(pid, SIGTRAP));
	ATF_REQUIRE(registers(pid).r_rip == address(behind_call) + 4);
	ATF_REQUIRE(go_on(pid) && wait_exit(pid, 7));
}

static volatile int handled;
static volatile long sum;

static void
handler(int sig)
{
	for (int i = 0; i < 4; i++)
		sum += sig;
	getppid();
	handled++;
}

static void
does_much(void)
{
	char text[32] = "four";
	int status, ends[2];
	pid_t pid;

	signal(SIGUSR1, handler);
	CHILD_REQUIRE(kill(getpid(), SIGUSR1) == 0);
	CHILD_REQUIRE(pipe(ends) == 0 && write(ends[1], text, 4) == 4 && read(ends[0], text, sizeof(text)) == 4);
	if ((pid = fork()) == 0)
		_exit(3);
	CHILD_REQUIRE(waitpid(pid, &status, 0) == pid && status == EXITED_WITH(3));
	if ((pid = vfork()) == 0)
		_exit(4);
	CHILD_REQUIRE(waitpid(pid, &status, 0) == pid && status == EXITED_WITH(4));
	CHILD_REQUIRE(handled == 1 && sum == 4 * SIGUSR1);
	_exit(9);
}

/* A whole program, step by step: calls, a handler, children. */
ATF_TC_WITHOUT_HEAD(all_instructions);
ATF_TC_BODY(all_instructions, tc)
{
	int status, made = 0, sig = 0;
	pid_t pid = start_traced(does_much);

	(void)registers(pid);
	for (;;) {
		ATF_REQUIRE(request(PT_STEP, pid, sig));
		ATF_REQUIRE(waitpid(pid, &status, 0) == pid);
		if (!WIFSTOPPED(status))
			break;
		sig = WSTOPSIG(status) == SIGTRAP ? 0 : WSTOPSIG(status);
		made++;
	}
	ATF_REQUIRE_MSG(status == EXITED_WITH(9), "status %#x", status);
	ATF_REQUIRE_MSG(made > 60, "%d steps", made);
}

static void
is_handled(void)
{
	signal(SIGUSR1, handler);
	long result = call_with_marks((void *)(uintptr_t)kill, getpid(), SIGUSR1, kept);
	_exit(result == 0 && handled == 1 && sum == 4 * SIGUSR1 && kept[3] == 0xb4 ? 11 : 12);
}

/* A breakpoint in a handler, and steps out of it to the place that it has interrupted. */
ATF_TC_WITHOUT_HEAD(steps_out_of_a_handler);
ATF_TC_BODY(steps_out_of_a_handler, tc)
{
	pid_t pid = start_traced(is_handled);
	unsigned char byte = set_byte(pid, (void *)(uintptr_t)handler, BREAKPOINT);
	struct reg r;
	int made = 0;

	ATF_REQUIRE(go_on(pid) && wait_stop(pid, SIGUSR1));
	ATF_REQUIRE(request(PT_CONTINUE, pid, SIGUSR1) && wait_stop(pid, SIGTRAP));
	r = registers(pid);
	ATF_REQUIRE(r.r_rip == address((void *)(uintptr_t)handler) + 1 && r.r_rdi == SIGUSR1 && r.r_rbp == 0xb2);
	r.r_rip--;
	set_registers(pid, &r);
	set_byte(pid, (void *)(uintptr_t)handler, byte);
	do {
		ATF_REQUIRE(steps(pid, pid));
		made++;
	} while (registers(pid).r_rip != address(behind_call) + 1 && made < 200);
	ATF_REQUIRE_MSG(made > 15 && made < 200, "%d steps", made);
	ATF_REQUIRE(go_on(pid) && wait_exit(pid, 11));
}

extern char fault_at[];

static void
faults(void)
{
	int value;

	__asm__ volatile("mov $16, %%eax\n.globl fault_at\nfault_at: movl (%%rax), %0" : "=r"(value) : : "rax");
	_exit(value);
}

static int good = 21;

/* A fault has an address. The debugger mends a register, and the instruction is made again. */
ATF_TC_WITHOUT_HEAD(fault_is_mended);
ATF_TC_BODY(fault_is_mended, tc)
{
	pid_t pid = start_traced(faults);
	struct ptrace_lwpinfo pl;
	struct reg r;

	ATF_REQUIRE(go_on(pid) && wait_stop(pid, SIGSEGV));
	r = registers(pid);
	pl = info(pid);
	ATF_REQUIRE(r.r_rip == address(fault_at) && r.r_rax == 16);
	ATF_REQUIRE(pl.pl_flags & PL_FLAG_SI && pl.pl_siginfo.si_code == SEGV_MAPERR && pl.pl_siginfo.si_addr == (void *)16);
	r.r_rax = address(&good);
	set_registers(pid, &r);
	ATF_REQUIRE(go_on(pid) && wait_exit(pid, 21));
}

static void
computes(void)
{
	double x = 1.5;

	__asm__ volatile("movsd %0, %%xmm0\n int3\n movsd %%xmm0, %0" : "+m"(x) : : "xmm0");
	_exit((int)x);
}

ATF_TC_WITHOUT_HEAD(floating_point_registers);
ATF_TC_BODY(floating_point_registers, tc)
{
	struct fpreg f;
	double x;
	pid_t pid = start_traced(computes);

	ATF_REQUIRE(go_on(pid) && wait_stop(pid, SIGTRAP));
	ATF_REQUIRE(ptrace(PT_GETFPREGS, pid, (caddr_t)&f, 0) == 0);
	memcpy(&x, f.fpr_xacc[0], sizeof(x));
	ATF_REQUIRE(x == 1.5);
	x = 41;
	memcpy(f.fpr_xacc[0], &x, sizeof(x));
	ATF_REQUIRE(ptrace(PT_SETFPREGS, pid, (caddr_t)&f, 0) == 0);
	ATF_REQUIRE(go_on(pid) && wait_exit(pid, 41));
}

static _Thread_local long in_thread;

static void
stores_its_base(void)
{
	in_thread = 5;
	CHILD_REQUIRE(kill(getpid(), SIGUSR1) == 0);
	_exit((int)in_thread);
}

/* A thread's own variables are found by the base of fs. */
ATF_TC_WITHOUT_HEAD(base_registers);
ATF_TC_BODY(base_registers, tc)
{
	unsigned long fs = 0, gs = 0, own = 0;
	pid_t pid = stopped_behind_call(stores_its_base);

	__asm__("mov %%fs:0, %0" : "=r"(own));
	ATF_REQUIRE(ptrace(PT_GETFSBASE, pid, (caddr_t)&fs, 0) == 0 && fs == own);
	ATF_REQUIRE(ptrace(PT_GETGSBASE, pid, (caddr_t)&gs, 0) == 0);
	caddr_t there = (caddr_t)(uintptr_t)(fs + ((unsigned long)&in_thread - own));
	ATF_REQUIRE(ptrace(PT_READ_D, pid, there, 0) == 5);
	ATF_REQUIRE(ptrace(PT_WRITE_D, pid, there, 6) == 0);
	ATF_REQUIRE(go_on(pid) && wait_exit(pid, 6));
}

/* Only for the debugger, and for a process that is stopped. */
ATF_TC_WITHOUT_HEAD(registers_refused);
ATF_TC_BODY(registers_refused, tc)
{
	struct reg r;
	pid_t pid = start(sleep_for_ever);

	ATF_REQUIRE_ERRNO(EPERM, ptrace(PT_GETREGS, pid, (caddr_t)&r, 0) == -1);
	ATF_REQUIRE(attach(pid) && go_on(pid));
	ATF_REQUIRE_ERRNO(EBUSY, ptrace(PT_GETREGS, pid, (caddr_t)&r, 0) == -1);
	ATF_REQUIRE_ERRNO(EBUSY, ptrace(PT_SETREGS, pid, (caddr_t)&r, 0) == -1);
	ATF_REQUIRE(kill(pid, SIGKILL) == 0 && wait_signaled(pid, SIGKILL));
	ATF_REQUIRE_ERRNO(ESRCH, ptrace(PT_GETREGS, pid, (caddr_t)&r, 0) == -1);
}

ATF_TP_ADD_TCS(tp)
{
	ATF_TP_ADD_TC(tp, stop_behind_a_call);
	ATF_TP_ADD_TC(tp, registers_are_set);
	ATF_TP_ADD_TC(tp, goes_on_elsewhere);
	ATF_TP_ADD_TC(tp, insecure_registers);
	ATF_TP_ADD_TC(tp, step_is_an_instruction);
	ATF_TP_ADD_TC(tp, all_instructions);
	ATF_TP_ADD_TC(tp, steps_out_of_a_handler);
	ATF_TP_ADD_TC(tp, fault_is_mended);
	ATF_TP_ADD_TC(tp, floating_point_registers);
	ATF_TP_ADD_TC(tp, base_registers);
	ATF_TP_ADD_TC(tp, registers_refused);
	return (atf_no_error());
}
