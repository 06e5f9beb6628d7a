/* Of FreeBSD's sysctl(3): kern.proc of one process, and of its threads. */
#ifndef TRACEHOST_SYS_SYSCTL_H
#define TRACEHOST_SYS_SYSCTL_H

#include <stddef.h>

#define CTL_KERN 1
#define KERN_OSTYPE 1 /* these four: ENOENT */
#define KERN_OSRELEASE 2
#define KERN_OSREV 3
#define KERN_VERSION 4
#define KERN_PROC 14
#define KERN_PROC_ALL 0 /* ENOENT */
#define KERN_PROC_PID 1
#define KERN_PROC_INC_THREAD 0x10
#define KERN_PROC_ARGS 7
#define KERN_PROC_PATHNAME 12
#define KERN_PROC_VMMAP 32
#define KERN_PROC_AUXV 36
#define KERN_PROC_PS_STRINGS 38 /* ENOENT */

#ifdef __cplusplus
extern "C"
#endif
int sysctl(const int *, unsigned, void *, size_t *, const void *, size_t);

#endif
