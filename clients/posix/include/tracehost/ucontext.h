/* The members of FreeBSD's mcontext_t for amd64, as names of the host's: uc->uc_mcontext.mc_rip. Those of segments aren't
 * here, as the host has them in one word. */
#ifndef TRACEHOST_UCONTEXT_H
#define TRACEHOST_UCONTEXT_H

#define mc_rdi gregs[REG_RDI]
#define mc_rsi gregs[REG_RSI]
#define mc_rdx gregs[REG_RDX]
#define mc_rcx gregs[REG_RCX]
#define mc_r8 gregs[REG_R8]
#define mc_r9 gregs[REG_R9]
#define mc_rax gregs[REG_RAX]
#define mc_rbx gregs[REG_RBX]
#define mc_rbp gregs[REG_RBP]
#define mc_r10 gregs[REG_R10]
#define mc_r11 gregs[REG_R11]
#define mc_r12 gregs[REG_R12]
#define mc_r13 gregs[REG_R13]
#define mc_r14 gregs[REG_R14]
#define mc_r15 gregs[REG_R15]
#define mc_trapno gregs[REG_TRAPNO]
#define mc_addr gregs[REG_CR2]
#define mc_err gregs[REG_ERR]
#define mc_rip gregs[REG_RIP]
#define mc_rflags gregs[REG_EFL]
#define mc_rsp gregs[REG_RSP]

#endif
