/*
 * Every general register, before a stop and behind it: `every_register ROUNDS`. FreeBSD on amd64.
 *
 * In each round a child has values of its own in all of them, and stops: at a breakpoint, or behind a call. Its debugger
 * looks at them, sets others, and lets it go on; the child looks at those. The status is 0 if none was ever wrong.
 */
#include <sys/types.h>
#include <sys/ptrace.h>
#include <sys/wait.h>
#include <machine/reg.h>
#include <err.h>
#include <signal.h>
#include <stdint.h>
#include <stdio.h>
#include <stdlib.h>
#include <string.h>
#include <unistd.h>

enum { REGISTERS = 15, RBX = 11, RBP = 10 }; /* in the order of struct reg: r15 first, rax last */

static long pid_of_child;

/* has_registers(before, behind, kills): a stop with `before` in them, and `behind` gets what is in them when it goes on. */
void has_registers(const uint64_t before[REGISTERS], uint64_t behind[REGISTERS], int kills);
__asm__(".text\n.globl has_registers\nhas_registers:\n"
	"push %rbp; push %rbx; push %r12; push %r13; push %r14; push %r15; push %rsi; test %edx, %edx\n"
	"mov %rdi, %rax\n"
	"mov (%rax), %r15; mov 8(%rax), %r14; mov 16(%rax), %r13; mov 24(%rax), %r12; mov 32(%rax), %r11; mov 40(%rax), %r10\n"
	"mov 48(%rax), %r9; mov 56(%rax), %r8; mov 64(%rax), %rdi; mov 72(%rax), %rsi; mov 80(%rax), %rbp; mov 88(%rax), %rbx\n"
	"mov 96(%rax), %rdx; mov 104(%rax), %rcx; mov 112(%rax), %rax\n"
	"jnz 1f\n"
	"int3\n"
	"jmp 2f\n"
	"1: call stop_by_call\n"
	"2: push %rax; mov 8(%rsp), %rax\n"
	"mov %r15, (%rax); mov %r14, 8(%rax); mov %r13, 16(%rax); mov %r12, 24(%rax); mov %r11, 32(%rax); mov %r10, 40(%rax)\n"
	"mov %r9, 48(%rax); mov %r8, 56(%rax); mov %rdi, 64(%rax); mov %rsi, 72(%rax); mov %rbp, 80(%rax); mov %rbx, 88(%rax)\n"
	"mov %rdx, 96(%rax); mov %rcx, 104(%rax)\n"
	"pop %rcx; mov %rcx, 112(%rax)\n"
	"pop %rsi; pop %r15; pop %r14; pop %r13; pop %r12; pop %rbx; pop %rbp; ret\n");

/* Its return is a jump: what the debugger sets behind kill(2) is what the caller finds. */
void stop_by_call(void);
__asm__(".globl stop_by_call\nstop_by_call:\n"
	"mov pid_to_stop(%rip), %rdi; mov $30, %esi\n" /* SIGUSR1 */
	"jmp *kill_itself(%rip)\n");
long pid_to_stop __asm__("pid_to_stop");
int (*volatile kill_itself)(pid_t, int) __asm__("kill_itself") = kill;

/* A value of its own for each round, side and register. */
static uint64_t
value(unsigned round, unsigned side, unsigned which)
{
	uint64_t x = ((uint64_t)round * 2 + side) * 16 + which + 1;

	x *= 0x9e3779b97f4a7c15;
	return (x ^ x >> 29);
}

static int
is_by_call(unsigned round)
{
	return (round % 2 == 1);
}

/* A call keeps only these; a breakpoint keeps all. */
static int
is_kept(unsigned round, unsigned which)
{
	return (!is_by_call(round) || which <= 3 || which == RBX || which == RBP);
}

static unsigned
child(unsigned rounds)
{
	uint64_t before[REGISTERS], behind[REGISTERS];
	unsigned wrong = 0;

	pid_to_stop = pid_of_child;
	for (unsigned round = 0; round < rounds; round++) {
		for (unsigned i = 0; i < REGISTERS; i++)
			before[i] = value(round, 0, i);
		has_registers(before, behind, is_by_call(round));
		for (unsigned i = 0; i < REGISTERS; i++)
			wrong += behind[i] != value(round, 1, i);
	}
	return (wrong);
}

static unsigned
look_and_set(pid_t pid, unsigned round)
{
	struct reg all;
	int64_t *words = &all.r_r15;
	unsigned wrong = 0;

	if (ptrace(PT_GETREGS, pid, (caddr_t)&all, 0) != 0)
		err(2, "PT_GETREGS");
	for (unsigned i = 0; i < REGISTERS; i++) {
		wrong += is_kept(round, i) && (uint64_t)words[i] != value(round, 0, i);
		words[i] = (int64_t)value(round, 1, i);
	}
	if (ptrace(PT_SETREGS, pid, (caddr_t)&all, 0) != 0)
		err(2, "PT_SETREGS");
	return (wrong);
}

static int
goes_on(pid_t pid)
{
	int status;

	if (ptrace(PT_CONTINUE, pid, (caddr_t)1, 0) != 0 || waitpid(pid, &status, 0) != pid)
		err(2, "it doesn't go on");
	return (status);
}

int
main(int argc, char **argv)
{
	unsigned rounds = argc == 2 ? (unsigned)atoi(argv[1]) : 100, wrong = 0;
	int status;
	pid_t pid;

	if ((pid = fork()) == 0) {
		pid_of_child = getpid();
		ptrace(PT_TRACE_ME, 0, NULL, 0);
		raise(SIGSTOP);
		_exit(child(rounds) != 0);
	}
	if (waitpid(pid, &status, 0) != pid || !WIFSTOPPED(status))
		err(2, "it isn't there");
	for (unsigned round = 0; round < rounds; round++) {
		status = goes_on(pid);
		if (!WIFSTOPPED(status) || WSTOPSIG(status) != (is_by_call(round) ? SIGUSR1 : SIGTRAP))
			errx(2, "status %#x in round %u", status, round);
		wrong += look_and_set(pid, round);
	}
	status = goes_on(pid);
	printf("%u rounds, %u wrong at a stop, %s behind it\n", rounds, wrong, status == 0 ? "none" : "some");
	return (wrong != 0 || status != 0);
}
