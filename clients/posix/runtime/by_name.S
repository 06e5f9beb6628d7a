/* Functions of the C library's by which a library, or an object of another compiler, would call the host. Those of the program
 * have other names. These come before the C library's: each one asks tracehost_by_name where to go on, with the registers of
 * the call as they were. */

	.macro HOLD name
	.weak \name
	.type \name, @function
\name:
	.cfi_startproc
	leaq 1f(%rip), %r11
	jmp by_name
	.cfi_endproc
	.size \name, . - \name
	.pushsection .rodata.by_name, "a", @progbits
1:	.asciz "\name"
	.popsection
	.pushsection .data.rel.ro.by_name, "aw", @progbits
	.quad 1b, \name
	.popsection
	.endm

/* What tracehost_held_names has: each name with its function. */
	.section .data.rel.ro.by_name, "aw", @progbits
	.globl tracehost_held_names
	.balign 8
tracehost_held_names:

	.text
	.irp name, wait, waitpid, wait3, wait4, waitid, sigaction, signal, sigset, sighold, sigrelse, sigignore, siginterrupt, \
		sigprocmask, pthread_sigmask, sigblock, sigsetmask, sigsuspend, sigpending, sigwait, sigwaitinfo, sigtimedwait, alarm, \
		setitimer
	HOLD \name
	.endr

	.section .data.rel.ro.by_name, "aw", @progbits
	.quad 0

	.text
	.type by_name, @function
by_name:
	.cfi_startproc
	pushq %rdi
	.cfi_def_cfa_offset 16
	pushq %rsi
	.cfi_def_cfa_offset 24
	pushq %rdx
	.cfi_def_cfa_offset 32
	pushq %rcx
	.cfi_def_cfa_offset 40
	pushq %r8
	.cfi_def_cfa_offset 48
	subq $8, %rsp
	.cfi_def_cfa_offset 56
	pushq %r11
	.cfi_def_cfa_offset 64
	movq %r11, %rdi
	movq 56(%rsp), %rsi
	call tracehost_by_name
	movq %rax, %r11
	addq $16, %rsp
	.cfi_def_cfa_offset 48
	popq %r8
	.cfi_def_cfa_offset 40
	popq %rcx
	.cfi_def_cfa_offset 32
	popq %rdx
	.cfi_def_cfa_offset 24
	popq %rsi
	.cfi_def_cfa_offset 16
	popq %rdi
	.cfi_def_cfa_offset 8
	jmp *%r11
	.cfi_endproc
	.size by_name, . - by_name

/* dlsym(3) and dlvsym(3) of the program: of these names they find these functions, wherever they look. The C library's see
 * the program's own address as their caller. */
	.macro FIND name
	.globl tracehost_\name
	.type tracehost_\name, @function
tracehost_\name:
	.cfi_startproc
	pushq %rdi
	.cfi_def_cfa_offset 16
	pushq %rsi
	.cfi_def_cfa_offset 24
	pushq %rdx
	.cfi_def_cfa_offset 32
	movq %rsi, %rdi
	call tracehost_found
	popq %rdx
	.cfi_def_cfa_offset 24
	popq %rsi
	.cfi_def_cfa_offset 16
	popq %rdi
	.cfi_def_cfa_offset 8
	testq %rax, %rax
	jne 1f
	jmp *\name@GOTPCREL(%rip)
1:	ret
	.cfi_endproc
	.size tracehost_\name, . - tracehost_\name
	.endm
	FIND dlsym
	FIND dlvsym

/* dlopen(3) of the program: what it loads is looked at before the next question. */
	.globl tracehost_dlopen
	.type tracehost_dlopen, @function
tracehost_dlopen:
	.cfi_startproc
	pushq %rdi
	.cfi_def_cfa_offset 16
	pushq %rsi
	.cfi_def_cfa_offset 24
	subq $8, %rsp
	.cfi_def_cfa_offset 32
	call tracehost_host_dlopen
	addq $8, %rsp
	.cfi_def_cfa_offset 24
	popq %rsi
	.cfi_def_cfa_offset 16
	popq %rdi
	.cfi_def_cfa_offset 8
	jmp *%rax
	.cfi_endproc
	.size tracehost_dlopen, . - tracehost_dlopen

	.section .note.GNU-stack, "", @progbits
