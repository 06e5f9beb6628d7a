/* FreeBSD's <sys/procfs.h>, in the part that debuggers share with their libraries. The host has a gregset_t too, in its
 * ucontext_t. */
#ifndef TRACEHOST_SYS_PROCFS_H
#define TRACEHOST_SYS_PROCFS_H

#include <machine/reg.h>
#include <sys/types.h>
#include <ucontext.h>

#define gregset_t struct reg
#define fpregset_t struct fpreg
typedef gregset_t prgregset_t;
typedef fpregset_t prfpregset_t;

#endif
