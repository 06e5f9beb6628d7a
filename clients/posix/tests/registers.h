/* Registers, breakpoints and steps of a stopped process. FreeBSD on amd64. */
#ifndef REGISTERS_H
#define REGISTERS_H

#include <machine/reg.h>
#include <stdint.h>

#define BREAKPOINT 0xcc

static inline struct reg
registers(pid_t id)
{
	struct reg r;

	memset(&r, 0, sizeof(r));
	ATF_REQUIRE(ptrace(PT_GETREGS, id, (caddr_t)&r, 0) == 0);
	return (r);
}

static inline void
set_registers(pid_t id, const struct reg *r)
{
	ATF_REQUIRE(ptrace(PT_SETREGS, id, (caddr_t)(uintptr_t)r, 0) == 0);
}

/* Sets the byte at a place of the program: the one that was there. */
static inline unsigned char
set_byte(pid_t pid, const void *at, unsigned char byte)
{
	unsigned char old;
	struct ptrace_io_desc desc = { .piod_op = PIOD_READ_I, .piod_offs = (void *)(uintptr_t)at, .piod_addr = &old, .piod_len = 1 };

	ATF_REQUIRE(ptrace(PT_IO, pid, (caddr_t)&desc, 0) == 0 && desc.piod_len == 1);
	desc.piod_op = PIOD_WRITE_I;
	desc.piod_addr = &byte;
	ATF_REQUIRE(ptrace(PT_IO, pid, (caddr_t)&desc, 0) == 0 && desc.piod_len == 1);
	return (old);
}

static inline bool
steps(pid_t id, pid_t pid)
{
	return (request(PT_STEP, id, 0) && wait_stop(pid, SIGTRAP));
}

static inline int64_t address(const void *of) { return ((int64_t)(uintptr_t)of); }

/*
 * A call of a function with known values in the registers that a function
 * keeps. They are written to `kept` when it is back, and the function's result
 * is returned.
 */
long call_with_marks(void *function, long first, long second, long kept[6]);
extern char behind_call[];
__asm__(".text\n.globl call_with_marks, behind_call\ncall_with_marks:\n"
	"push %rbp; push %rbx; push %r12; push %r13; push %r14; push %r15; push %rcx\n"
	"mov %rdi, %rax; mov %rsi, %rdi; mov %rdx, %rsi\n"
	"mov $0xb1, %ebx; mov $0xb2, %ebp; mov $0xb3, %r12d; mov $0xb4, %r13d; mov $0xb5, %r14d; mov $0xb6, %r15d\n"
	"call *%rax\n"
	"behind_call: pop %rcx\n"
	"mov %rbx, (%rcx); mov %rbp, 8(%rcx); mov %r12, 16(%rcx); mov %r13, 24(%rcx); mov %r14, 32(%rcx); mov %r15, 40(%rcx)\n"
	"pop %r15; pop %r14; pop %r13; pop %r12; pop %rbx; pop %rbp; ret\n");

#endif
