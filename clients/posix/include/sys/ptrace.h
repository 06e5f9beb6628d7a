/* FreeBSD's <sys/ptrace.h>, in the part that the model has. */
#ifndef TRACEHOST_SYS_PTRACE_H
#define TRACEHOST_SYS_PTRACE_H

#include <signal.h>
#include <stdint.h>
#include <sys/types.h>
#include "../machine/reg.h"
#include "../tracehost/siginfo.h"
#include "../vm/vm.h"

#define PT_TRACE_ME 0
#define PT_READ_I 1
#define PT_READ_D 2
#define PT_WRITE_I 4
#define PT_WRITE_D 5
#define PT_CONTINUE 7
#define PT_KILL 8
#define PT_STEP 9
#define PT_ATTACH 10
#define PT_DETACH 11
#define PT_IO 12
#define PT_LWPINFO 13
#define PT_GETNUMLWPS 14
#define PT_GETLWPLIST 15
#define PT_CLEARSTEP 16
#define PT_SETSTEP 17
#define PT_SUSPEND 18
#define PT_RESUME 19
#define PT_TO_SCE 20
#define PT_TO_SCX 21
#define PT_SYSCALL 22
#define PT_FOLLOW_FORK 23
#define PT_LWP_EVENTS 24
#define PT_GET_EVENT_MASK 25
#define PT_SET_EVENT_MASK 26
#define PT_GET_SC_ARGS 27
#define PT_GET_SC_RET 28
#define PT_GETREGS 33 /* from here on not the model's, but the runtime's */
#define PT_SETREGS 34
#define PT_GETFPREGS 35
#define PT_SETFPREGS 36
#define PT_GETDBREGS 37
#define PT_SETDBREGS 38
#define PT_VM_TIMESTAMP 40
#define PT_VM_ENTRY 41
#define PT_FIRSTMACH 64
#define PT_GETXSTATE_INFO (PT_FIRSTMACH + 4) /* these three: EINVAL */
#define PT_GETXSTATE (PT_FIRSTMACH + 5)
#define PT_SETXSTATE (PT_FIRSTMACH + 6)
#define PT_GETFSBASE (PT_FIRSTMACH + 7)
#define PT_SETFSBASE (PT_FIRSTMACH + 8) /* EINVAL */
#define PT_GETGSBASE (PT_FIRSTMACH + 9)
#define PT_SETGSBASE (PT_FIRSTMACH + 10)

#define PTRACE_EXEC 0x0001
#define PTRACE_SCE 0x0002
#define PTRACE_SCX 0x0004
#define PTRACE_SYSCALL (PTRACE_SCE | PTRACE_SCX)
#define PTRACE_FORK 0x0008
#define PTRACE_LWP 0x0010
#define PTRACE_VFORK 0x0020
#define PTRACE_DEFAULT PTRACE_EXEC

#define PL_EVENT_NONE 0
#define PL_EVENT_SIGNAL 1

#define PL_FLAG_SA 0x01
#define PL_FLAG_BOUND 0x02
#define PL_FLAG_SCE 0x04
#define PL_FLAG_SCX 0x08
#define PL_FLAG_EXEC 0x10
#define PL_FLAG_SI 0x20
#define PL_FLAG_FORKED 0x40
#define PL_FLAG_CHILD 0x80
#define PL_FLAG_BORN 0x100
#define PL_FLAG_EXITED 0x200
#define PL_FLAG_VFORKED 0x400
#define PL_FLAG_VFORK_DONE 0x800

struct ptrace_lwpinfo {
	lwpid_t pl_lwpid;
	int pl_event;
	int pl_flags;
	sigset_t pl_sigmask;
	sigset_t pl_siglist;
	struct __siginfo pl_siginfo; /* the runtime's, as the next one */
	char pl_tdname[20];
	pid_t pl_child_pid;
	unsigned pl_syscall_code;
	unsigned pl_syscall_narg; /* the runtime's */
};

struct ptrace_io_desc {
	int piod_op;
	void *piod_offs;
	void *piod_addr;
	size_t piod_len;
};
#define PIOD_READ_D 1
#define PIOD_WRITE_D 2
#define PIOD_READ_I 3
#define PIOD_WRITE_I 4

typedef int64_t syscallarg_t;

struct ptrace_sc_ret {
	syscallarg_t sr_retval[2];
	int sr_error;
};

struct ptrace_xstate_info {
	uint64_t xsave_mask;
	uint32_t xsave_len;
};

struct ptrace_vm_entry {
	int pve_entry;
	int pve_timestamp;
	unsigned long pve_start, pve_end, pve_offset;
	unsigned pve_prot;
	unsigned pve_pathlen;
	long pve_fileid;
	uint32_t pve_fsid;
	char *pve_path;
};

#ifdef __cplusplus
extern "C"
#endif
int ptrace(int, pid_t, char *, int);

#endif
