/* How a program comes into the runtime, and out of it: as into a kernel.
 *
 * Each call of <tracehost/names.h> begins here. Its registers are kept (struct frame of runtime.h), and its function runs
 * on the thread's own stack for calls: what is below the program's stack pointer is the program's, and its debugger's.
 * If something is due as the call returns, the thread meets an int3 with the program's stack as it was: a landing. */

#define AT_FRAME 0
#define AT_TOP 8
#define AT_INSIDE 16
#define AT_LANDS 20
#define AT_REPORTS 24
#define AT_SELECTOR 28
#define AT_WATCHES 29

#define ENTRY(name) \
	.globl tracehost_##name; \
	.type tracehost_##name, @function; \
	tracehost_##name: \
	.cfi_startproc; \
	leaq tracehost_call_##name(%rip), %r11; \
	jmp enter; \
	.cfi_endproc; \
	.size tracehost_##name, . - tracehost_##name;

/* A function of the host's comes in only if PT_SYSCALL reports calls. The program may have one of that name. */
#define HOST(name, code, count) \
	.weak tracehost_host_##name; \
	.type tracehost_host_##name, @function; \
	tracehost_host_##name: \
	.cfi_startproc; \
	movq tracehost_own@gottpoff(%rip), %r11; \
	cmpl $0, %fs:AT_REPORTS(%r11); \
	movq name@GOTPCREL(%rip), %r11; \
	jne enter; \
	jmp *%r11; \
	.cfi_endproc; \
	.size tracehost_host_##name, . - tracehost_host_##name;

	.section tracehost_entry, "ax", @progbits
#include "entries.inc"
#include "hosts.inc"

	.type enter, @function
enter:
	.cfi_startproc
	movq %r10, -16(%rsp)
	movq %r11, -24(%rsp)
	movq tracehost_own@gottpoff(%rip), %r10
	movb $0, %fs:AT_SELECTOR(%r10)
	movq %rsp, %r11
	.cfi_def_cfa %r11, 8
	movq %fs:AT_TOP(%r10), %rsp
	cmpl $0, %fs:AT_INSIDE(%r10)
	je 1f
	leaq -256(%r11), %rsp /* a function of the program's that the C library calls in the midst of a call: pthread_atfork(3) */
	andq $-16, %rsp
1:	pushq %fs:AT_INSIDE(%r10)
	pushq %fs:AT_FRAME(%r10)
	pushq %r11
	pushq -24(%r11)
	pushfq
	pushq %rax
	pushq %rcx
	pushq %rdx
	pushq %rbx
	pushq %rbp
	pushq %rsi
	pushq %rdi
	pushq %r8
	pushq %r9
	pushq -16(%r11)
	pushq 80(%rsp) /* as of a system call: r11 has the flags */
	pushq %r12
	pushq %r13
	pushq %r14
	pushq %r15
	movq %rsp, %rbp
	.cfi_escape 0x0f, 0x06, 0x76, 0x88, 0x01, 0x06, 0x23, 0x08 /* the CFA is *(rbp + 136) + 8 */
	.cfi_escape 0x10, 0x06, 0x03, 0x76, 0xd0, 0x00 /* rbp is at rbp + 80 */
	movq %rsp, %fs:AT_FRAME(%r10)
	movl $1, %fs:AT_INSIDE(%r10)
	cmpl $0, %fs:AT_REPORTS(%r10)
	jne 5f
	call *128(%rbp)
4:	movq tracehost_own@gottpoff(%rip), %r10
	movq 144(%rbp), %r11
	cmpl $0, 152(%rbp)
	cmoveq %rbp, %r11
	movq %r11, %fs:AT_FRAME(%r10)
	movl 152(%rbp), %r11d
	movl %r11d, %fs:AT_INSIDE(%r10)
	.cfi_remember_state
	movq 136(%rbp), %rsp
	movq 80(%rbp), %rbp
	.cfi_def_cfa %rsp, 8
	.cfi_restore %rbp
	testl %r11d, %r11d
	jne 2f
	movb %fs:AT_WATCHES(%r10), %r11b
	movb %r11b, %fs:AT_SELECTOR(%r10)
	cmpl $0, %fs:AT_LANDS(%r10)
	jne 3f
2:	ret
3:	int3
	.globl tracehost_landing
tracehost_landing:
	ud2
	.cfi_restore_state
5:	movq %rbp, %rdi
	call tracehost_reported_call
	jmp 4b
	.globl tracehost_restart
	.type tracehost_restart, @function
tracehost_restart:
	movq %rdi, %rbp
	movq %rdi, %rsp
	call tracehost_restarted_call
	jmp 4b
	.cfi_endproc
	.size enter, . - enter

/* tracehost_be_born(routine, argument): the int3's handler goes on at the routine, which returns to tracehost_born. */
	.globl tracehost_be_born
	.type tracehost_be_born, @function
tracehost_be_born:
	.cfi_startproc
	subq $8, %rsp
	.cfi_def_cfa_offset 16
	movq %rdi, %rax
	movq %rsi, %rdi
	leaq tracehost_born(%rip), %rcx
	pushq %rcx
	int3
	.globl tracehost_birth
tracehost_birth:
	ud2
	.globl tracehost_born
tracehost_born:
	addq $8, %rsp
	.cfi_def_cfa_offset 8
	ret
	.cfi_endproc
	.size tracehost_be_born, . - tracehost_be_born

/* tracehost_on_stack(call): a function of the program's, on a stack of the program's (struct outcall of runtime.h). Its
 * frame pointer is that of the place which it interrupts. */
	.globl tracehost_on_stack
	.type tracehost_on_stack, @function
tracehost_on_stack:
	.cfi_startproc
	pushq %rbp
	.cfi_def_cfa_offset 16
	.cfi_offset %rbp, -16
	movq %rsp, %rax
	movq 0(%rdi), %rsp
	.cfi_def_cfa %rax, 16
	pushq %rax
	pushq %rax
	.cfi_escape 0x0f, 0x05, 0x77, 0x00, 0x06, 0x23, 0x10 /* the CFA is *rsp + 16 */
	movq 8(%rdi), %rax
	movq 16(%rdi), %rbp
	movq 32(%rdi), %rsi
	movq 40(%rdi), %rdx
	movq 24(%rdi), %rdi
	call *%rax
	.globl tracehost_handled
tracehost_handled:
	movq (%rsp), %rsp
	.cfi_def_cfa %rsp, 16
	popq %rbp
	.cfi_def_cfa_offset 8
	ret
	.cfi_endproc
	.size tracehost_on_stack, . - tracehost_on_stack

/* Where handlers of the host's signals return to, if their program's system calls are dispatched: its bytes are the C library's,
 * which unwinders know. */
	nop
	.globl tracehost_restorer
	.type tracehost_restorer, @function
tracehost_restorer:
	movq $15, %rax
	syscall
	.globl tracehost_restorer_end
tracehost_restorer_end:
	.size tracehost_restorer, . - tracehost_restorer

	.section .note.GNU-stack, "", @progbits
