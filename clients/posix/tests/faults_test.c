/* Faults: their signal, code and address. FreeBSD on amd64: sys/amd64/amd64/trap.c, and sys/vm/vm_fault.c for pages. */
#include "debugger.h"
#include "registers.h"
#include <sys/mman.h>

/* sys/sys/signal.h */
_Static_assert(ILL_PRVOPC == 5 && BUS_ADRALN == 1 && BUS_OBJERR == 3 && SEGV_MAPERR == 1 && SEGV_ACCERR == 2, "codes of faults");
_Static_assert(FPE_INTOVF == 1 && FPE_INTDIV == 2 && FPE_FLTDIV == 3 && TRAP_BRKPT == 1 && TRAP_TRACE == 2, "codes of traps");

/* The target stops for its fault, and PT_LWPINFO says which one it is. */
static void
reports_fault(void (*body)(void), int sig, int code, const void *at)
{
	pid_t pid = start_traced(body);
	struct ptrace_lwpinfo pl;

	ATF_REQUIRE(go_on(pid) && wait_stop(pid, sig));
	pl = info(pid);
	ATF_REQUIRE(pl.pl_flags & PL_FLAG_SI && pl.pl_siginfo.si_signo == sig);
	ATF_REQUIRE_MSG(pl.pl_siginfo.si_code == code, "code %d instead of %d", pl.pl_siginfo.si_code, code);
	ATF_REQUIRE_MSG(pl.pl_siginfo.si_addr == at, "address %p instead of %p", pl.pl_siginfo.si_addr, at);
	ATF_REQUIRE(ptrace(PT_KILL, pid, NULL, 0) == 0 && wait_signaled(pid, SIGKILL));
}

/* A function whose first instruction has the fault. */
#define FAULT_CASE(name, code, sig, si_code) \
	void name##_at(void); \
	__asm__(".text\n.globl " #name "_at\n" #name "_at: " code "\n ret\n"); \
	ATF_TC_WITHOUT_HEAD(name); \
	ATF_TC_BODY(name, tc) { reports_fault(name##_at, sig, si_code, (const void *)(uintptr_t)name##_at); }

FAULT_CASE(invalid_opcode, "ud2", SIGILL, ILL_PRVOPC)
FAULT_CASE(privileged_instruction, "hlt", SIGBUS, BUS_OBJERR)
FAULT_CASE(privileged_register, "mov %cr0, %rax", SIGBUS, BUS_OBJERR)

static char *volatile no_page = (char *)16;
static char *volatile not_canonical = (char *)(1UL << 62);
static volatile int zero, most_negative = -2147483647 - 1, minus_one = -1;
static char *volatile mapping;
static volatile double one = 1, nothing;

static void reads_nothing(void) { (void)*(volatile char *)no_page; }
static void reads_mapping(void) { (void)*(volatile char *)mapping; }
static void writes_mapping(void) { *(volatile char *)mapping = 1; }

ATF_TC_WITHOUT_HEAD(no_mapping);
ATF_TC_BODY(no_mapping, tc) { reports_fault(reads_nothing, SIGSEGV, SEGV_MAPERR, no_page); }

ATF_TC_WITHOUT_HEAD(no_permission);
ATF_TC_BODY(no_permission, tc)
{
	mapping = mmap(NULL, 4096, PROT_READ, MAP_PRIVATE | MAP_ANON, -1, 0);
	ATF_REQUIRE(mapping != MAP_FAILED);
	reports_fault(writes_mapping, SIGSEGV, SEGV_ACCERR, mapping);
}

/* A page behind the end of the file that is mapped. */
ATF_TC_WITHOUT_HEAD(past_the_end_of_a_file);
ATF_TC_BODY(past_the_end_of_a_file, tc)
{
	char name[] = "/tmp/faults.XXXXXX";
	int fd = mkstemp(name);

	ATF_REQUIRE(fd >= 0 && unlink(name) == 0);
	mapping = mmap(NULL, 4096, PROT_READ, MAP_SHARED, fd, 0);
	ATF_REQUIRE(mapping != MAP_FAILED);
	reports_fault(reads_mapping, SIGBUS, BUS_OBJERR, mapping);
}

/* The address of what isn't a page fault is the instruction's. */
static void
reports_fault_anywhere(void (*body)(void), int sig, int code)
{
	pid_t pid = start_traced(body);
	struct ptrace_lwpinfo pl;

	ATF_REQUIRE(go_on(pid) && wait_stop(pid, sig));
	pl = info(pid);
	ATF_REQUIRE_MSG(pl.pl_siginfo.si_code == code, "code %d instead of %d", pl.pl_siginfo.si_code, code);
	ATF_REQUIRE((uintptr_t)pl.pl_siginfo.si_addr == (uintptr_t)registers(pid).r_rip);
	ATF_REQUIRE(ptrace(PT_KILL, pid, NULL, 0) == 0 && wait_signaled(pid, SIGKILL));
}

static void reads_elsewhere(void) { (void)*(volatile char *)not_canonical; }
static void divides(void) { zero = most_negative / zero; }
static void overflows(void) { zero = most_negative / minus_one; }
static void breaks(void) { __asm__ volatile("int3"); }

static void
divides_doubles(void)
{
	unsigned control = 0x1f80 & ~0x0200; /* all exceptions are masked, but the division by zero */

	__asm__ volatile("ldmxcsr %0" : : "m"(control));
	nothing = one / nothing;
}

static void
reads_across(void)
{
	static char bytes[16] __attribute__((aligned(16)));

	__asm__ volatile("pushfq\n orl $0x40000, (%%rsp)\n popfq\n movl 1(%0), %%eax" : : "r"(bytes) : "rax", "cc", "memory");
}

#define ANYWHERE_CASE(name, body, sig, code) \
	ATF_TC_WITHOUT_HEAD(name); \
	ATF_TC_BODY(name, tc) { reports_fault_anywhere(body, sig, code); }

ANYWHERE_CASE(address_not_canonical, reads_elsewhere, SIGBUS, BUS_OBJERR)
ANYWHERE_CASE(division_by_zero, divides, SIGFPE, FPE_INTDIV)
ANYWHERE_CASE(division_that_overflows, overflows, SIGFPE, FPE_INTDIV)
ANYWHERE_CASE(division_of_doubles, divides_doubles, SIGFPE, FPE_FLTDIV)
ANYWHERE_CASE(breakpoint, breaks, SIGTRAP, TRAP_BRKPT)
ANYWHERE_CASE(not_aligned, reads_across, SIGBUS, BUS_ADRALN)

static void
note(int sig, siginfo_t *si, void *context)
{
	(void)context;
	_exit(sig == si->si_signo && si->si_code == ILL_PRVOPC && si->si_addr == (void *)(uintptr_t)invalid_opcode_at ? 17 : 18);
}

/* A handler of the program's is told the same. */
ATF_TC_WITHOUT_HEAD(handler_of_a_fault);
ATF_TC_BODY(handler_of_a_fault, tc)
{
	struct sigaction action = { .sa_sigaction = note, .sa_flags = SA_SIGINFO };
	pid_t pid;

	ATF_REQUIRE(sigaction(SIGILL, &action, NULL) == 0);
	pid = start(invalid_opcode_at);
	ATF_REQUIRE(wait_exit(pid, 17));
}

ATF_TP_ADD_TCS(tp)
{
	ATF_TP_ADD_TC(tp, invalid_opcode);
	ATF_TP_ADD_TC(tp, privileged_instruction);
	ATF_TP_ADD_TC(tp, privileged_register);
	ATF_TP_ADD_TC(tp, no_mapping);
	ATF_TP_ADD_TC(tp, no_permission);
	ATF_TP_ADD_TC(tp, past_the_end_of_a_file);
	ATF_TP_ADD_TC(tp, address_not_canonical);
	ATF_TP_ADD_TC(tp, division_by_zero);
	ATF_TP_ADD_TC(tp, division_that_overflows);
	ATF_TP_ADD_TC(tp, division_of_doubles);
	ATF_TP_ADD_TC(tp, breakpoint);
	ATF_TP_ADD_TC(tp, not_aligned);
	ATF_TP_ADD_TC(tp, handler_of_a_fault);
	return (atf_no_error());
}
